"""The streams of a call, by their SSRCs, and how long one may take to begin."""

# The sender's picture and sound, and what the receiver gets.
VIDEO, AUDIO, SLOT, MIX = 101, 201, 501, 9002
# In seconds.
PATIENCE = 60
