#!/usr/bin/env bash
# Three services of a shop, in Python and each with a database of its own, take part in the transactions of a coordinator: a
# purchase; one that the stock vetoes; and one in which the payment is killed behind its vote and the coordinator behind its
# decision, and both come up again. What the databases hold is compared with what they should. It wants Python 3.10, and the ports
# 9001 to 9005.
#
#     examples/shop.sh
set -u
top=$(cd "$(dirname "${BASH_SOURCE[0]}")/.." && pwd) || exit 1
. "$top/examples/processes.sh"
shop=$top/examples/shop
export PYTHONDONTWRITEBYTECODE=1

# `opens SERVICE PORT [hangs]` starts a service.
opens() { start "$1" python3 "$shop/$1.py" "127.0.0.1:$2" "$room/$1.db" ${3+"$3"}; }

# `buys COUNT OUTCOME WHAT` has the buyer buy so many books for 20 each, and says what that was and how it ended.
buys() {
  local said
  said=$(python3 "$shop/buyer.py" http://127.0.0.1:9001 127.0.0.1:9005 "$1" 20 http://127.0.0.1:900{2,3,4}/)
  echo "$3: $said"
  [ "$said" = "$2" ] && return
  echo "and not $2" >&2
  exit 1
}

# `hold TEXT` prints what the databases hold, once it is this; or what else they hold after 20 seconds.
hold() {
  local held end=$((SECONDS + 20))
  while held=$(python3 "$shop/holdings.py" "$room") && [ "$held" != "$1" ] && [ "$SECONDS" -lt "$end" ]; do sleep 0.1; done
  echo "  $held"
  [ "$held" = "$1" ] && return
  echo "and not $1" >&2
  exit 1
}

begin coordinator 9001
opens orders 9002
opens payment 9003
opens stock 9004

buys 2 committed '2 books'
hold 'orders 2, money 60, stock 3'

buys 4 aborted '4 books, of which 3 are in stock'
hold 'orders 2, money 60, stock 3'

kills payment
opens payment 9003 hangs
buys 1 committed '1 book; payment is killed behind its vote, the coordinator behind its decision'
kills payment
kills coordinator
hold 'orders 3, money 40 (in doubt), stock 2'

# where nothing comes for a second the coordinator says its decision again
begin coordinator 9001
opens payment 9003
echo 'both come up again'
hold 'orders 3, money 40, stock 2'
