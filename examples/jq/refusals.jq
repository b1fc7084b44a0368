# How many were refused, by number and element: jq -rs -f.
map(select(.refused).refused) | group_by([.number, .element.element])[]
| "\(length) refused \(.[0].number), \(.[0].name)" + (.[0].element | if . == null then "" else ": \(.element // "type \(.type)")" end)
