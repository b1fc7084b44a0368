# Which payloads have Blanks, of which elements, and how many bits: jq -r -f.
(.payload + if has("record") then ", record \(.record)" else "" end) as $payload
| .root? | .. | objects | select(has("blank")) | "\($payload): \(.blank), \(.bits) bits"
