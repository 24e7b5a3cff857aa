#!/usr/bin/env bash
# orders.sh [ROUNDS]: how long tools/orders takes to find a deadlock of two mutexes that are taken in two orders, among 100 orders: the
# median of ROUNDS (5) searches, in seconds as time passes and of all processors.
. "$(dirname -- "${BASH_SOURCE[0]}")/head.bash" "$@"

TIMEFORMAT='%R %U %S'
for ((i = 0; i < rounds; i++)); do
  { time GP=$gp "$top/tools/orders" "$top/examples/order/order.gp" >said; } 2>>times
  grep -q '^ *6  deadlock ' said || { echo "${0##*/}: no deadlock was found" >&2; exit 1; }
done
middle=$(((rounds + 1) / 2))
awk '{ print $1, $2 + $3 }' times | sort -n | awk -v middle="$middle" 'NR == middle { printf "passed %.2f processors %.2f\n", $1, $2 }'
