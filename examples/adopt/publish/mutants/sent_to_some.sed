# The next publisher doesn't send the message that the last one had begun.
# refused by: kills step 32
s/made->begun = place_begun(made)/made->begun = NOWHERE/
