# What serve.sh, crash.sh, shop.sh and tls.sh share: processes that run beside the script, and what they print. The script names
# the repository in `top` first.
room=$(mktemp -d) || exit 1
failed=0
# the nodes end with the script, whose status is 1 where something was wrong
trap 'status=$?; kill $(jobs -p) 2>/dev/null; rm -rf "$room"; [ "$status" = 0 ] && status=$failed; exit "$status"' EXIT
"$top/atx" --version >/dev/null || exit 1

# `start NAME COMMAND ..` starts a process, keeps it in the variable of its name, and waits until it says that it is up.
start() {
  local name=$1 waited
  shift
  "$@" >"$room/$name.out" </dev/null &
  printf -v "$name" '%s' $!
  for waited in $(seq 100); do
    grep -qs '^up' "$room/$name.out" && return
    kill -0 "${!name}" 2>/dev/null || break
    sleep 0.1
  done
  kill "${!name}" 2>/dev/null
  wait "${!name}"
  echo "$name: not up, status $?" >&2
  exit 1
}

# `begin ROLE PORT [TURNS]` starts a node, as `start` does.
begin() { start "$1" "$top/atx" "$1" --listen "127.0.0.1:$2" --journal "$room/$1" ${3:+--turns "$3"}; }

# `kills NAME` ends a process by signal 9.
kills() { { kill -9 "${!1}"; wait "${!1}"; } 2>/dev/null; }

# `ended NAME STATUS` says where a process didn't end well.
ended() {
  [ "$2" = 0 ] && return
  echo "$1: status $2" >&2
  failed=1
}

# `printed ROLE LINE ..` compares what a node printed, and shows it.
printed() {
  local role=$1
  shift
  if [ "$(cat "$room/$role.out")" = "$(printf '%s\n' "$@")" ]; then
    sed "s/^/$role: /" "$room/$role.out"
    return
  fi
  echo "$role printed something else than $*:" >&2
  cat "$room/$role.out" >&2
  failed=1
}

# `commits [PORT]` has the initiator begin a transaction at the coordinator, have the participant work in it, and commit it. It listens
# at the port, 9003 where none is given; its base is at 9003.
commits() {
  "$top/atx" initiator --listen "127.0.0.1:${1:-9003}" --base http://127.0.0.1:9003 --journal "$room/initiator" --turns 0 \
    >"$room/initiator.out" <<'LINES'
begin http://127.0.0.1:9001 60000
wait
wait
work 1 http://127.0.0.1:9002 d prepared seat 12A
wait
commit 1
wait
LINES
  ended initiator $?
}
