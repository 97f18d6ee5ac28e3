#!/usr/bin/env bash
# Starts the program as a server on the loopback network over a file, sends requests over one
# connection that is kept open, then a whole transaction and the cabinet register over seventeen
# more, and compares the answers. On the machine's other addresses its port refuses connections.
# Then come clients that send half a head, or read nothing of a large answer, each of which the
# server ends after 30 seconds, and clients that send nothing, or close in the middle, behind which
# nobody waits; after each the next one is answered. It waits for the server's end, and prints the
# timing sheet from the file. Needs curl and Python 3, and takes some one and a half minutes. Prints
# ok.
#
#     tests/program/server.sh [PROGRAM [PORT]]
#
# By default it takes the program that ./office built, and a free port.
set -eu
top=$(cd "$(dirname "$0")/../.." && pwd)
program=$(python3 "$top/tests/lib/program.py" "${@:1:1}") || exit 2
free='import socket; it = socket.create_server(("127.0.0.1", 0)); print(it.getsockname()[1])'
port=${2:-$(python3 -c "$free")}
address=http://127.0.0.1:$port
folder=$(mktemp -d)
server=
client=

# The server is ended where it was not served to its end.
clean() {
  [ -z "$server" ] || kill "$server" 2>/dev/null || true
  [ -z "$client" ] || kill "$client" 2>/dev/null || true
  rm -rf "$folder"
}
trap clean EXIT

fail() {
  echo "server.sh: $*" >&2
  exit 1
}

# expect NAME FILE TEXT: the file holds exactly the text.
expect() {
  printf '%s' "$3" | cmp -s - "$2" || fail "$1: $(cat "$2")"
}

"$program" serve --port "$port" --count 29 --db "$folder/office.db" >"$folder/told" 2>"$folder/fault" </dev/null &
server=$!

# It listens once it has said so. At most ten seconds.
for _ in $(seq 100); do
  [ ! -s "$folder/told" ] || break
  kill -0 "$server" 2>/dev/null || fail "ended before it listened: $(cat "$folder/fault")"
  sleep 0.1
done
expect "what it prints" "$folder/told" "listening on 127.0.0.1:$port"$'\n'

# Nobody listens on the other addresses of this machine: another one of its loopback network, that of
# IPv6, and its own in other networks.
for other in 127.0.0.2 '[::1]' $(hostname -I 2>/dev/null | tr ' ' '\n' | grep -F . || true); do
  status=0
  curl --silent --max-time 10 --noproxy '*' --output "$folder/answer" "http://$other:$port/stock" || status=$?
  [ "$status" = 7 ] || fail "at $other, where nobody should listen, curl ended with status $status"
done

curl --silent --show-error --max-time 10 --noproxy '*' --write-out '%{http_code} %{num_connects}\n' \
  --data-binary '{"id":12,"interval":365,"name":"Main St"}' --output "$folder/added" "$address/intersections" \
  --next --silent --show-error --max-time 10 --noproxy '*' --write-out '%{http_code} %{num_connects}\n' \
  --output "$folder/state" "$address/intersections/12" >"$folder/statuses"

expect "the answer to the first request" "$folder/added" '{"result":"added"}'
expect "the answer to the second request" "$folder/state" \
  '{"id":12,"interval":365,"name":"Main St","owner":null,"revision":0,"rows":0,"state":"normal","verify":"notDone"}'
# Both came over one connection, which the first request made.
expect "statuses and new connections" "$folder/statuses" $'200 1\n200 0\n'

# ask NAME PATH BODY ANSWER: posts the body over a connection of its own, and compares the answer.
ask() {
  curl --silent --show-error --max-time 10 --noproxy '*' --data-binary "$3" --output "$folder/answer" "$address/$2"
  expect "$1" "$folder/answer" "$4"
}

rows=$(sed 's/,/","/g; s/^/["/; s/$/"]/' "$top/bench/plan.csv" | paste -sd, -)
ask begin intersections/12/begin '{"clerk":"Ana"}' '{"revision":0,"state":"transaction","verify":"notDone"}'
ask edit intersections/12/edit "{\"clerk\":\"Ana\",\"rows\":[$rows]}" '{"revision":0,"state":"transaction","verify":"notDone"}'
ask verify intersections/12/verify '{"clerk":"Ana"}' '{"revision":0,"state":"verify","verify":"notDone"}'
ask check intersections/12/check '{"clerk":"Ana"}' '{"revision":0,"state":"done","verify":"doneWithNoError"}'
ask commit intersections/12/commit '{"clerk":"Ana"}' '{"revision":1,"state":"normal","verify":"notDone"}'
ask "a commit too many" intersections/12/commit '{"clerk":"Ana"}' '{"error":"NotDone","number":16}'

# The cabinet: a delivery, an order that uses parts of it and is closed, an inspection, and what is shown of them.
ask "a delivery" deliveries '{"count":10,"day":"2026-05-01","number":1,"part":"RELAY"}' '{"result":"added"}'
order='{"clerk":"Ana","day":"2026-05-01","number":1,"text":"Replace flash relay"}'
ask "an order" intersections/12/orders "$order" '{"result":"added"}'
ask "the order again" intersections/12/orders "$order" '{"result":"same"}'
ask "a used part" intersections/12/orders/1/parts '{"count":2,"line":1,"part":"RELAY"}' '{"result":"added"}'
ask "too many parts" intersections/12/orders/1/parts '{"count":9,"line":2,"part":"RELAY"}' '{"error":"NoStock","number":25}'
ask "an inspection" intersections/12/inspections '{"clerk":"Ana","day":"2026-03-01","number":1,"text":"Fan cleaned"}' '{"result":"added"}'
ask "a closing" intersections/12/orders/1/close '{"clerk":"Bo","day":"2026-05-03"}' '{"result":"added"}'

# show NAME PATH ANSWER: gets the path over a connection of its own, and compares the answer.
show() {
  curl --silent --show-error --max-time 10 --noproxy '*' --output "$folder/answer" "$address/$2"
  expect "$1" "$folder/answer" "$3"
}

show "stock" stock '{"hand":[{"count":8,"part":"RELAY"}]}'
show "open orders" intersections/12/open-orders '{"open":[]}'
show "a cabinet" intersections/12/cabinet \
  '{"inspections":[{"clerk":"Ana","day":"2026-03-01","number":1,"text":"Fan cleaned"}],"orders":[{"clerk":"Ana","closed":"2026-05-03","closer":"Bo","number":1,"opened":"2026-05-01","text":"Replace flash relay","used":[{"count":2,"line":1,"part":"RELAY"}]}]}'
show "overdue" overdue/2027-03-02 '{"overdue":[{"due":"2027-03-01","id":12,"name":"Main St"}]}'

# Two requests over one connection of Python's http.client, which keeps it open.
python3 - "$port" <<'PYTHON' || fail "a kept connection of http.client"
import http.client, sys
connection = http.client.HTTPConnection("127.0.0.1", int(sys.argv[1]), timeout=10)
connection.request("GET", "/stock")
first = connection.getresponse()
assert (first.status, first.read()) == (200, b'{"hand":[{"count":8,"part":"RELAY"}]}')
kept = connection.sock
connection.request("GET", "/intersections/12/open-orders")
second = connection.getresponse()
assert (second.status, second.read()) == (200, b'{"open":[]}')
assert kept is not None and connection.sock is kept
PYTHON

# A client that does what its name says, tells that it is ready, and keeps its connection for two minutes
# where it does not close it.
cat >"$folder/client.py" <<'PYTHON'
import socket, struct, sys, time
port, what = int(sys.argv[1]), sys.argv[2]
wire = socket.socket()
if what == "reads-nothing":
    wire.setsockopt(socket.SOL_SOCKET, socket.SO_RCVBUF, 4096)
wire.connect(("127.0.0.1", port))
if what == "half-a-head":
    wire.sendall(b"GET /stock HTTP/1.1\r\nHost: 127")
elif what == "reads-nothing":
    # Ten thousand answers of the timing of an intersection fill whatever the system keeps of them.
    wire.settimeout(3)
    try:
        wire.sendall(b"GET /intersections/12/timing HTTP/1.1\r\n\r\n" * 10000)
    except TimeoutError:
        pass
elif what == "closes":
    wire.sendall(b"POST /intersections HTTP/1.1\r\nContent-Length: 41\r\n\r\n{\"id\":13")
    wire.close()
elif what == "breaks-off":
    wire.sendall(b"GET /intersections/12/timing HTTP/1.1\r\n\r\n" * 100 + b"GET /sto")
    wire.setsockopt(socket.SOL_SOCKET, socket.SO_LINGER, struct.pack("ii", 1, 0))
    wire.close()
print("ready", flush=True)
if what not in ("closes", "breaks-off"):
    time.sleep(120)
PYTHON

# after WHAT LOW HIGH: after such a client the next one is answered, in so many seconds.
after() {
  rm -f "$folder/ready"
  python3 "$folder/client.py" "$port" "$1" >"$folder/ready" &
  client=$!
  for _ in $(seq 100); do
    [ ! -s "$folder/ready" ] || break
    sleep 0.1
  done
  local start=$SECONDS
  curl --silent --show-error --max-time 60 --noproxy '*' --output "$folder/answer" "$address/stock" || fail "no answer after a client that $1"
  expect "the answer after a client that $1" "$folder/answer" '{"hand":[{"count":8,"part":"RELAY"}]}'
  local took=$((SECONDS - start))
  [ "$took" -ge "$2" ] && [ "$took" -le "$3" ] || fail "answered $took seconds after a client that $1"
  kill "$client" 2>/dev/null || true
  wait "$client" 2>/dev/null || true
  client=
}

after is-silent 0 5
after half-a-head 25 40
after reads-nothing 20 45
after closes 0 5
after breaks-off 0 5

# That was the last of the twenty-nine connections: the program ends, with status 0.
for _ in $(seq 100); do
  kill -0 "$server" 2>/dev/null || break
  sleep 0.1
done
! kill -0 "$server" 2>/dev/null || fail "it does not end"
status=0
wait "$server" || status=$?
server=
[ "$status" = 0 ] || fail "status $status"
[ ! -s "$folder/fault" ] || fail "on standard error: $(cat "$folder/fault")"

"$program" sheet --db "$folder/office.db" 12 >"$folder/sheet" || fail "sheet ended with status $?"
cmp -s "$folder/sheet" - <<'SHEET' || fail "the sheet: $(cat "$folder/sheet")"
Intersection 12: Main St
Revision 1
Phases
    No  Ring   Min  Pass   Max   Yel   Red  Walk Clear Width Setbk Short  Lead Mates
     2     1     8   2.0    40   4.0   1.5     7    12  49.0   6.0     0     0 6
     4     1     8   2.0    40   4.0   1.5     -     -     -     -     -     - 8
     6     2     8   2.0    40   4.0   1.5     -     -     -     -     -     - 2
     8     2     8   2.0    40   4.0   1.5     -     -     -     -     -     - 4
Sequences
    No  Ring Phases
     1     1 2 4
     1     2 6 8
Splits
    No Phase  Time  Mode Coord
     1     2    35     2     1
     1     4    25     2     0
     1     6    35     2     1
     1     8    25     2     0
Patterns
    No Cycle  Offs Split   Seq
     1    60     0     1     1
SHEET
status=0
"$program" sheet --db "$folder/office.db" 13 2>"$folder/fault" || status=$?
[ "$status" = 1 ] || fail "status of an unknown intersection: $status"
expect "the fault" "$folder/fault" "note: there is no intersection 13 in $folder/office.db"$'\nfault: unknown intersection\n'
echo ok
