# A subscriber notes that it has finished a message before the work on it.
# refused by: kills step 32
s/message->len = note->len;/& STORE(\&subscriber->own->finished, note->number);/
