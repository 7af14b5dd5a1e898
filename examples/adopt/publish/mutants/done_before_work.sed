# A subscriber is done with a note before the work on its message.
# refused by: kills step 32
s/message->len = note->len;/& bb_file_party_done(subscriber->party, note);/
/^static uint32_t discard_note/,/^}/ s/= bb_file_party_done(.*/= BB_OK;/
