#!/bin/sh
# Prints a script in which a session overflows, or its expected output.
#
# usage: overflow.make script|expected
#
# A session is subscribed to /a/b and fetches nothing. Four requests publish 1,024 events there, and
# one more event is too many. Both texts are too long to keep in files.
set -eu
first=000000000000000000000000000000000000000000000001
second=000000000000000000000000000000000000000000000002
retry='"advice":{"interval":0,"reconnect":"retry","timeout":30000}'
served='"successful":true,"supportedConnectionTypes":["long-polling","callback-polling"],"version":"1.0"'

# Prints the text $1 256 times, separated by commas: the greatest number of messages in a request.
repeat_256() {
    awk -v text="$1" 'BEGIN { for (n = 1; n <= 256; n++) printf "%s%s", (n > 1 ? "," : ""), text }'
}

script() {
    handshake='{"channel":"/meta/handshake","version":"1.0","supportedConnectionTypes":["long-polling"]}'
    publish='{"channel":"/a/b","clientId":"'$first'","data":1}'
    echo "0 P [$handshake]"
    echo '0 P [{"channel":"/meta/subscribe","clientId":"'$first'","subscription":"/a/b"}]'
    for _ in 1 2 3 4; do
        echo "0 P [$(repeat_256 "$publish")]"
    done
    echo "0 P [$publish]"
    # The session has overflowed: its connects fail, and its other messages are accepted.
    echo '0 P [{"channel":"/meta/connect","clientId":"'$first'","connectionType":"long-polling"}]'
    echo "0 P [$publish]"
    # Its client opens a new session, and continues with that.
    echo "0 P [$handshake]"
    echo '0 P [{"channel":"/meta/subscribe","clientId":"'$second'","subscription":"/a/b"},{"channel":"/a/b","clientId":"'$second'","data":2}]'
    echo '0 P [{"channel":"/meta/connect","clientId":"'$second'","connectionType":"long-polling"}]'
}

expected() {
    published='{"channel":"/a/b","successful":true}'
    echo '1 200 [{'"$retry"',"channel":"/meta/handshake","clientId":"'$first'",'"$served"'}]'
    echo '2 200 [{"channel":"/meta/subscribe","clientId":"'$first'","subscription":"/a/b","successful":true}]'
    for line in 3 4 5 6; do
        echo "$line 200 [$(repeat_256 "$published")]"
    done
    echo "7 200 [$published]"
    echo '8 200 [{"advice":{"interval":0,"reconnect":"handshake"},"channel":"/meta/connect","clientId":"'$first'","error":"413::Queue overflow","successful":false}]'
    echo "9 200 [$published]"
    echo '10 200 [{'"$retry"',"channel":"/meta/handshake","clientId":"'$second'",'"$served"'}]'
    echo '11 200 [{"channel":"/meta/subscribe","clientId":"'$second'","subscription":"/a/b","successful":true},'"$published]"
    echo '12 200 [{"channel":"/a/b","data":2},{'"$retry"',"channel":"/meta/connect","clientId":"'$second'","successful":true}]'
}

case ${1:-} in
    script) script ;;
    expected) expected ;;
    *)
        echo 'usage: examples/scripts/overflow.make script|expected' >&2
        exit 2
        ;;
esac
