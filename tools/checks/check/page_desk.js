// A desk as /desk.txt tells it, on which the page's functions are tried.
"use strict";
const text = `room 1
room 2
member 0 10 1 127.0.0.1:6000 pcmu 9001 0 0
member 1 11 1 127.0.0.1:6002 l16 9002 65530 0
member 2 12 2 127.0.0.1:6004 pcmu 9003 0 0
source 101 10 video
source 102 10 video
source 103 11 video
source 201 10 audio
source 202 11 audio
slot 501 11 0 65535 1000
slot 502 11 1 0 0
slot 503 10 0 0 0
sub 502 102
mute 202
gain 11 201 128
pin 1 101
floor 1 10
end 17
names 3
state 0a-4
`;
module.exports = { text };
