#!/usr/bin/env bash
# Three processes on the loopback commit a transaction: an initiator, a coordinator and a participant, each with a journal in a
# folder of its own that goes with the script. What each prints is compared with what it should.
#
#     examples/serve.sh
set -u
top=$(cd "$(dirname "${BASH_SOURCE[0]}")/.." && pwd) || exit 1
. "$top/examples/processes.sh"

# as many turns as requests come: Create, two Registers, Commit, Prepared, Committed; and Work, RegisterResponse, Prepare, Commit
begin coordinator 9001 6
begin participant 9002 4
commits
wait "$coordinator"
ended coordinator $?
wait "$participant"
ended participant $?

printed coordinator 'up 1' 'root 1-1 committed'
printed participant 'up 1' 'leaf 1-1 d committed'
printed initiator 'up 1' 'told 1-1 committed'
