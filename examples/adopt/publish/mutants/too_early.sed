# A subscriber gets a message although another process is just reaping the one before.
# refused by: kills reap 32
s/note->previous > finished/false/
