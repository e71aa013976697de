#!/usr/bin/env bash
# Three nodes on the loopback commit a transaction over TLS with client certificates. Nodes themselves speak plain HTTP: before each
# stands a TLS proxy, and what a node posts goes into the mouth of a tunnel. Both are stunnel's, and each node's base is a mouth:
#
#     node that posts -> 127.0.0.1:900N, a mouth -TLS-> 127.0.0.1:944N, a proxy -> 127.0.0.1:910N, the node N
#
# Whoever has no certificate of the throw-away authority that is made here reaches no node at a proxy. It wants stunnel4, openssl
# and curl, and the ports 9001 to 9003, 9101 to 9103 and 9441 to 9443.
#
#     examples/tls.sh
set -u
top=$(cd "$(dirname "${BASH_SOURCE[0]}")/.." && pwd) || exit 1
PATH=$PATH:/usr/sbin
for command in stunnel4 openssl curl; do
  command -v "$command" >/dev/null || { echo "tls.sh: no $command here" >&2; exit 1; }
done
. "$top/examples/processes.sh"

# `authority NAME` makes an authority that signs certificates.
authority() {
  openssl req -x509 -newkey ec -pkeyopt ec_paramgen_curve:P-256 -nodes -days 1 -subj "/CN=$1" \
    -keyout "$room/$1.key" -out "$room/$1.pem" 2>>"$room/openssl.log" || exit 1
}

# `certificate NAME AUTHORITY` makes a key and a certificate of that name, for both ends of a connection, signed by the authority.
certificate() {
  printf 'subjectAltName=DNS:%s\nextendedKeyUsage=serverAuth,clientAuth\n' "$1" >"$room/$1.ext"
  openssl req -newkey ec -pkeyopt ec_paramgen_curve:P-256 -nodes -subj "/CN=$1" \
    -keyout "$room/$1.key" -out "$room/$1.csr" 2>>"$room/openssl.log" &&
  openssl x509 -req -in "$room/$1.csr" -CA "$room/$2.pem" -CAkey "$room/$2.key" -CAcreateserial -days 1 \
    -extfile "$room/$1.ext" -out "$room/$1.pem" 2>>"$room/openssl.log" || exit 1
}

# `proxy ROLE N` is the proxy before a node: it asks for a certificate of the authority.
proxy() {
  printf '[%s]\naccept = 127.0.0.1:944%s\nconnect = 127.0.0.1:910%s\n' "$1" "$2" "$2"
  printf 'cert = %s\nkey = %s\nCAfile = %s\nverifyChain = yes\n' "$room/$1.pem" "$room/$1.key" "$room/authority.pem"
}

# `mouth ROLE N` is where this machine's nodes post to that one: it shows a certificate, and asks for the node's own.
mouth() {
  printf '[to-%s]\nclient = yes\naccept = 127.0.0.1:900%s\nconnect = 127.0.0.1:944%s\n' "$1" "$2" "$2"
  printf 'cert = %s\nkey = %s\n' "$room/machine.pem" "$room/machine.key"
  printf 'CAfile = %s\nverifyChain = yes\ncheckHost = %s\n' "$room/authority.pem" "$1"
}

# `answers WHO [OPTION ..]` asks the coordinator's proxy for what is due, and prints the status of the answer: 000 where none came.
answers() {
  local who=$1
  shift
  echo "$who: $(curl -s -o "$room/answer" -m 5 -w '%{http_code}' -X POST -d '' --connect-to coordinator:443:127.0.0.1:9441 "$@")"
}

# `serves ROLE N` starts a node behind its proxy: it listens where the proxy connects to, and its base is its mouth.
serves() { start "$1" "$top/atx" "$1" --listen "127.0.0.1:910$2" --base "http://127.0.0.1:900$2" --journal "$room/$1"; }

authority authority
authority stranger
for name in coordinator participant initiator machine; do certificate "$name" authority; done
certificate intruder stranger

{
  printf 'foreground = yes\npid =\nsyslog = no\nsslVersionMin = TLSv1.2\n'
  proxy coordinator 1
  proxy participant 2
  proxy initiator 3
  mouth coordinator 1
  mouth participant 2
  mouth initiator 3
} >"$room/stunnel.conf"
stunnel4 "$room/stunnel.conf" >"$room/stunnel.log" 2>&1 &
for waited in $(seq 100); do
  { : </dev/tcp/127.0.0.1/9003; } 2>/dev/null && break
  sleep 0.1
done

serves coordinator 1
serves participant 2

{
  answers 'a client of plain HTTP' http://coordinator:443/tick
  answers 'a client without a certificate' --cacert "$room/authority.pem" https://coordinator/tick
  answers "a client with another authority's" --cacert "$room/authority.pem" --cert "$room/intruder.pem" \
    --key "$room/intruder.key" https://coordinator/tick
  answers 'a client with a certificate' --cacert "$room/authority.pem" --cert "$room/machine.pem" --key "$room/machine.key" \
    https://coordinator/tick
} >"$room/clients.out"
printed clients 'a client of plain HTTP: 000' 'a client without a certificate: 000' "a client with another authority's: 000" \
  'a client with a certificate: 202'

commits 9103

# the participant hears of the decision beside the initiator
for waited in $(seq 100); do
  grep -q '^leaf' "$room/participant.out" && break
  sleep 0.1
done
printed coordinator 'up 1' 'root 1-1 committed'
printed participant 'up 1' 'leaf 1-1 d committed'
printed initiator 'up 1' 'told 1-1 committed'
[ "$failed" = 0 ] || tail -n 20 "$room/stunnel.log" >&2
