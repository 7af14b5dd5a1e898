# The publisher skips a full queue silently.
# refused by: calls
s/BB_FILE_TIMED_OUT && publisher->options.drops/BB_FILE_TIMED_OUT/
