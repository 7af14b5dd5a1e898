# The publisher writes to a place whose message isn't finished.
# refused by: calls
s/LOAD(&subscriber_of(publisher, number)->finished) < place->number/false/
