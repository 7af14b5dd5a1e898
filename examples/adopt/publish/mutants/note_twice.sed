# A subscriber gets a message twice if its note comes twice.
# refused by: kills step 32
s/note->number <= finished/note->number < finished/
