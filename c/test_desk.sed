# What the gateway hands to the desk (sed -E), as c/stream.c tells it: a message that is booked by its type, unit and number, a rejection by its type,
# ClOrdID, reason and text. Lines of sessions, orders and unread messages, and the last one, go; any other stays as it is.
/^book [0-9]+$/d
/^session (asked|replaying|live|closed)$/d
/^(sent|unsent|unreceived|unread) /d
/^messages [0-9]+ length [0-9]+ handed [0-9]+ refused [0-9]+( [0-9]+:[0-9]+)*$/d
s/^(25|2C) ([0-9]+) ([0-9]+) Order (Acknowledgment|Execution) TransactionTime=[-0-9T:.]+Z ClOrdID=[^ ]+ .*/\1 \2 \3/
# a rejection's text goes to a line of its own, while quotes are taken off; ? is for a blank reason
s/^(26 0 0 Order|2B 0 0 Cancel|29 0 0 User Modify) Rejected TransactionTime=[-0-9T:.]+Z ClOrdID=/\1 Rejected /
s/^(26|2B|29) 0 0 [A-Za-z ]+ Rejected ([^ ]+) [A-Z][a-z]+RejectReason=("[^"]*"|[^ ]+) Text=("([^"\\]|\\.)*"|[^ ]+)( .*)?$/\1 \2 \3\n\4/
/\n/ {
    s/ (-|" ")\n/ ?\n/
    s/\n-$//
    s/\n"(.*)"$/\n\1/
    s/\\(["\\])/\1/g
    s/\n/ /
}
