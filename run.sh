#!/bin/sh
# Proves and builds the library, gsym-addr2line and `gsym`, and resolves a sample crash: a made-up stock connector that
# died while it posted an order (host/sample). The first run proves everything below them; later ones take seconds.
set -eu
cd "$(dirname "$0")"
command -v make >/dev/null 2>&1 || { echo "run.sh: 'make' is not on the PATH"; exit 2; }
sh tools/kit.sh || exit 2
mkdir -p target
log=target/run.log
: >"$log"
echo "Proves and builds the library, gsym-addr2line and gsym, and resolves a sample crash. The first run proves every"
echo "function below them, some 8 minutes on four processors; later ones take seconds. Log: $log"
make >"$log" 2>&1 &
building=$!
trap 'kill $building 2>/dev/null' INT TERM
# a line for what each crate has come to, as rt writes it to the log
progress() {
    awk '/^rt: chose --jobs [0-9]+ for / { name = $NF }
        /^so far: [1-9][0-9]* of / { print "  " name ": " $3 " of " $5 " functions" }
        /^crate [a-z_]*: / { sub(":", "", $2); print "  " $2 ": proved" }' "$log"
}
told=0
while kill -0 $building 2>/dev/null; do
    sleep 1
    lines=$(progress | wc -l)
    [ "$lines" -eq "$told" ] || progress | sed -n "$((told + 1)),${lines}p"
    told=$lines
done
wait $building || { tail -n 20 "$log"; echo "run.sh: it failed; the whole log is $log"; exit 1; }
echo
sample=host/sample/connector.gsym
echo "$ gsym-addr2line -e $sample -afip 0x1155"
./gsym-addr2line -e $sample -afip 0x1155
echo
echo "The order was being sent: the innermost function is send_request, called by post_order, inlined into sync_orders."
echo "An address whose name is torn, and one that no symbol covers, are refused and not guessed:"
echo
echo "$ gsym-addr2line -e $sample -afip --refusals 0x11d5 0x2000"
./gsym-addr2line -e $sample -afip --refusals 0x11d5 0x2000 || [ $? = 1 ]
