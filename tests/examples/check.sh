#!/usr/bin/env bash
# Compares the program's output for the examples with the expected answers, and tries the mistakes of a new user.
set -uo pipefail
cd "$(dirname "${BASH_SOURCE[0]}")/../../examples/photos"
site=${PROGRAM:-../../cedar_site}
failed=0

# name, expected status, expected lines ("nothing": none; empty: not compared), the stream of the lines (1 or 2), arguments
wants() {
    local name=$1 status=$2 line=$3 stream=$4
    shift 4
    local out err got
    out=$(mktemp) err=$(mktemp)
    "$site" "$@" >"$out" 2>"$err"
    got=$?
    local output=$out
    [ "$stream" = 2 ] && output=$err
    if [ "$got" != "$status" ] || { [ -n "$line" ] && [ "$(cat "$output")" != "${line#nothing}" ]; }; then
        echo "$name: expected status $status${line:+ and $line}, got $got and $(cat "$output")"
        failed=1
    fi
    rm -f "$out" "$err"
}

broken=$(mktemp -d)
trap 'rm -rf "$broken"' EXIT
printf '[{"uid":' >"$broken/entities.json"
printf 'permit(principal, action);' >"$broken/policies.cedar"
printf 'permit(principal, action, resource); permit(principal, action, resource) when { principal.age > 17 };' >"$broken/erring.cedar"
decide=(decide --policies policies.cedar --entities entities.json)

wants "bob views" 0 "$(cat answer.txt)" 1 "${decide[@]}" --request request.json
wants "a guest comments" 0 "$(cat guest_answer.txt)" 1 "${decide[@]}" --request guest.json
wants "bob downloads" 0 "$(cat download_answer.txt)" 1 "${decide[@]}" --request download.json
wants "a guest downloads" 0 "$(cat guest_download_answer.txt)" 1 "${decide[@]}" --request guest_download.json
wants "help" 0 "" 1 --help
wants "a wrong option" 2 "" 2 "${decide[@]}" --request request.json --scheme s
wants "no command" 2 "" 2
wants "check without a schema" 2 "" 2 check policies.cedar
wants "a missing file" 3 "fault: nowhere.json" 2 "${decide[@]}" --request nowhere.json
wants "broken JSON" 1 '{"error":{"code":30,"place":null,"within":null}}' 2 decide --policies policies.cedar --entities "$broken/entities.json" --request request.json
wants "a broken policy" 1 '{"error":{"code":11,"place":24,"within":null}}' 2 decide --policies "$broken/policies.cedar" --entities entities.json --request request.json
wants "a policy errs" 0 '{"cycle":[],"decision":"Allow","errors":[{"error":"attrDoesNotExist","policy":"policy1"}],"reason":["policy0"]}' 1 decide --policies "$broken/erring.cedar" --entities entities.json --request request.json
# The examples of docs/codes.md: code, place, policy text.
refused() {
    printf '%s' "$3" >"$broken/code.cedar"
    wants "code $1" 1 "{\"error\":{\"code\":$1,\"place\":$2,\"within\":null}}" 2 decide --policies "$broken/code.cedar" --entities entities.json --request request.json
}
refused 10 26 'permit(principal, action, #);'
refused 11 24 'permit(principal, action);'
refused 12 43 'permit(principal, action, resource) when { 9223372036854775808 > 0 };'
refused 13 43 'permit(principal, action, resource) when { now() == 1 };'
refused 14 43 'permit(principal, action, resource) when { ip() == 1 };'
refused 15 50 'permit(principal, action, resource) when { {a: 1, "a": 2} == {} };'
refused 16 20 'permit(principal == ?principal, action, resource);'
refused 19 0 '@id("") permit(principal, action, resource);'
printf '[{"uid":{"type":"User"}}]' >"$broken/entities.json"
wants "code 30" 1 '{"error":{"code":30,"place":0,"within":null}}' 2 decide --policies policies.cedar --entities "$broken/entities.json" --request request.json


# The clinic: validation under a schema, attributes and a context.
cd ../clinic
decide=(decide --schema schema.json --policies policies.cedar --entities entities.json)
wants "the clinic's policies" 0 "$(cat policies_verdicts.txt)" 1 check --schema schema.json policies.cedar
wants "the clinic's draft" 1 "$(cat draft_verdicts.txt)" 1 check --schema schema.json draft.cedar
wants "the clinic's hasty draft, explained" 1 "$(cat hasty_draft_explained.txt)" 1 explain --schema schema.json hasty_draft.cedar
cd ../tinytodo
wants "the draft for lists, explained" 1 "$(cat draft_explained.txt)" 1 explain --schema schema.json draft.cedar
cd ../clinic
for asked in ben_reads ben_writes ben_away ann_writes; do
    wants "$asked" 0 "$(cat ${asked}_answer.txt)" 1 "${decide[@]}" --request $asked.json
done
wants "a draft decides nothing" 1 '{"error":{"code":44,"place":0,"within":null}}' 2 decide --schema schema.json --policies draft.cedar --entities entities.json --request ben_reads.json
: >"$broken/empty.cedar"
wants "no policies" 0 nothing 1 check --schema schema.json "$broken/empty.cedar"
printf '{"":{"entityTypes":{"Staff":{"memberOfTypes":["Crew"]}}}}' >"$broken/schema.json"
wants "a type that is not declared" 1 '{"error":{"code":22,"place":null,"within":null}}' 2 check --schema "$broken/schema.json" policies.cedar
wants "a broken policy under a schema" 1 '{"error":{"code":11,"place":24,"within":null}}' 2 check --schema schema.json "$broken/policies.cedar"
wants "a missing schema" 3 "fault: nowhere.json" 2 check --schema nowhere.json nowhere.cedar
printf '[{"uid":{"type":"Staff","id":"eve"},"attrs":{"ward":"north"}},{"uid":{"type":"Staff","id":"joe"}}]' >"$broken/staff.json"
wants "an entity without its ward" 1 '{"error":{"code":34,"place":1,"within":null}}' 2 decide --schema schema.json --policies policies.cedar --entities "$broken/staff.json" --request ben_reads.json
printf '%s' '{"principal":"Staff::\"ben\"","action":"Action::\"chart\"","resource":"Chart::\"c1\""}' >"$broken/chart.json"
wants "an action that applies to nothing" 1 '{"error":{"code":39,"place":null,"within":null}}' 2 "${decide[@]}" --request "$broken/chart.json"
# A script of two sites, with a message that is lost and one that comes late.
wants "a message is lost, one comes late" 0 "$(cat lost_and_late_lines.txt)" 1 drill --schema schema.json --sites 2 lost_and_late.jsonl
printf '{"site":3,"do":"offer"}' >"$broken/third.jsonl"
wants "a script with a third site of two" 1 '{"error":{"code":30,"place":0,"within":null}}' 2 drill --schema schema.json --sites 2 "$broken/third.jsonl"
wants "no site" 2 "" 2 drill --schema schema.json --sites 0 lost_and_late.jsonl

[ $failed = 0 ] && echo "examples: all checks passed"
exit $failed
