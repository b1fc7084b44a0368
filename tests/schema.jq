# What of a JSON Schema docs/host.schema.json uses, and nothing else: a schema with another key is an error. Input: the schema and the lines.
def fits($schema; $root):
    . as $it
    | ($schema | keys - ["$schema", "$defs", "title", "description", "oneOf", "$ref", "type", "properties", "required", "additionalProperties",
        "items", "enum", "const", "minimum", "maximum", "pattern"]) as $unknown
    | if $unknown != [] then error("unknown in the schema: \($unknown)") else . end
    | ($schema["$ref"] // null) as $ref
    | (if $ref then fits($root["$defs"][$ref | ltrimstr("#/$defs/")] // error("no \($ref)"); $root) else true end)
    and (if $schema | has("oneOf") then [$schema.oneOf[] as $one | $it | fits($one; $root) | select(.)] | length == 1 else true end)
    and (if $schema | has("type") then $schema.type == ($it | type) or ($schema.type == "integer" and ($it | type) == "number" and $it == ($it | floor)) else true end)
    and (if $schema | has("enum") then any($schema.enum[]; . == $it) else true end)
    and (if $schema | has("const") then $schema.const == $it else true end)
    and (if $schema | has("minimum") then $it >= $schema.minimum else true end)
    and (if $schema | has("maximum") then $it <= $schema.maximum else true end)
    and (if $schema | has("pattern") then $it | test($schema.pattern) else true end)
    and (if $schema | has("required") then all($schema.required[]; . as $key | $it | has($key)) else true end)
    and (if $schema | has("properties") then
            all($it | keys[]; . as $key | ($schema.properties | has($key)) or $schema.additionalProperties != false)
            and all($schema.properties | keys[]; . as $key | if $it | has($key) then $it[$key] | fits($schema.properties[$key]; $root) else true end)
        else true end)
    and (if $schema | has("items") then all($it[]; fits($schema.items; $root)) else true end);

# How many events an item is of: Start and End, the Cast, attributes with their values, the value, the content.
def events:
    if has("element") then
        2 + ([select(has("substitute"))] | length) + ([.attributes[] | if .present then 2 else 1 end] | add // 0)
        + (if has("value") then 1 else 0 end) + ([.content[]? | events] | add // 0)
    else 1 end;
def blanks: if has("blank") then 1 else [.content[]? | blanks] | add // 0 end;

# The lines that do not fit, or have other counts than they say.
$schema[0] as $schema
| inputs
| select((fits($schema; $schema) and (if has("root") then (.root | events) == .events and (.root | blanks) == .blanks else true end)) | not)
