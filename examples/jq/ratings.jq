# Title and rating. A Blank is no rating: neither 0 nor absent: jq -r -f.
def of($word): map(select(.element == $word or .blank == $word))[0];
.root.content | of("title").value + ": "
+ (of("rating") | if . == null then "no rating" elif has("blank") then "rating NOT HELD" else "from \(.value)" end)
