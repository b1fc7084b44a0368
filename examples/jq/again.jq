# What was refused or could not be read, for another try: jq -r -f.
select(has("root") | not) | .payload + if has("record") then ", record \(.record)" else "" end
