# The shares that were traded of each stock, and their average price. Given the executions, trades and crosses of a day, as itchsnap prints them:
#     { itchsnap show DAY --orders --types EC --json; itchsnap show DAY --types PQ --json; } | jq -rs -f examples/volume.jq
# An execution that is not printable is also part of a cross.
map(select(.printable != "N")
    | {stock, shares: (.executed_shares // .shares), price: (.execution_price // .cross_price // .price // .order_price | tonumber)})
| group_by(.stock)[]
| (map(.shares) | add) as $shares
| "\(.[0].stock) \($shares) \((map(.shares * .price) | add) / $shares * 10000 | round / 10000)"
