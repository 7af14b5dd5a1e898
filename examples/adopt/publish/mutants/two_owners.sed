# Two processes are the same subscriber.
# refused by: calls
s/last != 0 && alive.number == 1/false/
