# a board of three, for calls.record
board (3) exec 0x60000000-0x70000000 boot 0x60000000 starts 100000 lives 3
