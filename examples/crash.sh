#!/usr/bin/env bash
# A coordinator is killed behind its decision, before its participant hears of it. Both come up again from their journals; the
# coordinator is asked for what is due, and the participant commits.
#
#     examples/crash.sh
set -u
top=$(cd "$(dirname "${BASH_SOURCE[0]}")/.." && pwd) || exit 1
. "$top/examples/processes.sh"

# the participant goes away when it has voted: it has taken Work, RegisterResponse and Prepare
begin coordinator 9001 100
begin participant 9002 3
commits
wait "$participant"
ended participant $?
kills coordinator

printed coordinator 'up 1' 'root 1-1 committed'
printed participant 'up 1'
printed initiator 'up 1' 'told 1-1 committed'

# the tick, and Committed; and Commit
begin coordinator 9001 2
begin participant 9002 1
"$top/atx" tick --to http://127.0.0.1:9001
ended tick $?
wait "$coordinator"
ended coordinator $?
wait "$participant"
ended participant $?

printed coordinator 'up 2'
printed participant 'up 2' 'leaf 1-1 d committed'
