# When it is shown, and which attributes are absent: jq -r -f.
.. | objects | select(.element == "showing")
| "\(.content[] | select(.element == "begins").value | todate), "
+ (.attributes[] | .attribute + " " + if .present then "\(.value)" else "absent" end)
