"""Lines of histories that are bad by themselves, and lines at the limits. A module, and no tool
itself."""

import json

from fuzzing.histories import MOST

# Lines that are bad by themselves. The instance of each is none of the good ones.
BAD_LINES = [
    "[]", "{}", "7", "null", '"call"', "[call,9,0,1,2]", '["call",9,0,1,2', '["call",9,0,1,2]]',
    '["call",9,0,1,2] []', '["call",9,0,1]', '["call",9,0]', '["call",9,0,1,2,3]',
    '["cal",9,0,1,2]', '["Call",9,0,1,2]', '["reply",9,0,1,2]', '[null,9,0,1,2]',
    '{"r":9,"i":0,"seq":1,"deps":[],"ops":[]}', "[9,0]", '["reply",9,0,"ok",[]]',
    # the instance
    '["call",256,0,1,2]', '["call",-1,0,1,2]', '["call",9.0,0,1,2]', '["call","9",0,1,2]',
    '["call",null,0,1,2]', '["call",9,18446744073709551616,1,2]', '["call",9,-1,1,2]',
    '["call",9,0.5,1,2]', '["call",9,1e2,1,2]', '["call",9,-0,1,2]', '["call",[9,0],1,2]',
    # the times
    '["call",9,0,3,2]', '["call",9,0,1,0]', '["call",9,0,null,2]', '["call",9,0,null,null]',
    '["call",9,0,-1,2]', '["call",9,0,-0,2]', '["call",9,0,1.5,2]', '["call",9,0,1,2.0]',
    '["call",9,0,1,2e1]', '["call",9,0,"1",2]', '["call",9,0,1,true]', '["call",9,0,1,[2]]',
    f'["call",9,0,{MOST + 1},{MOST + 2}]', f'["call",9,0,1,{MOST + 1}]',
    f'["call",9,0,{MOST + 1},null]', f'["call",9,0,1,{2**64}]',
    # the reply
    '["call",9,0,1,null,"ok",[]]', '["call",9,0,1,null,"abort",0]', '["call",9,0,1,2,"ok"]',
    '["call",9,0,1,2,"abort"]', '["call",9,0,1,2,null]', '["call",9,0,1,2,["ok",[]]]',
    '["call",9,0,1,2,"OK",[]]', '["call",9,0,1,2,"fail",[]]', '["call",9,0,1,2,null,[]]',
    '["call",9,0,1,2,"ok",7]', '["call",9,0,1,2,"ok",null]', '["call",9,0,1,2,"ok",{}]',
    '["call",9,0,1,2,"ok",["7"]]', '["call",9,0,1,2,"ok",[1.0]]', '["call",9,0,1,2,"ok",[[7]]]',
    f'["call",9,0,1,2,"ok",[{MOST + 1}]]', f'["call",9,0,1,2,"ok",[{-MOST - 2}]]',
    '["call",9,0,1,2,"ok",[],7]', '["call",9,0,1,2,"ok",[7],[8]]', '["call",9,0,1,2,"abort",[]]',
    f'["call",9,0,1,2,"ok",{json.dumps([7] * 65)}]', '["call",9,0,1,2,"abort",64]',
    '["call",9,0,1,2,"abort",-1]', '["call",9,0,1,2,"abort",0.0]', '["call",9,0,1,2,"abort",null]',
    '["call",9,0,1,2,"abort",0,0]',
    # the bytes
    '\ufeff["call",9,0,1,2]', '["call",9,0,1,2]\x00', "\x0b", "\x0c", "\xa0",
    '["call",9,0,1,2]' + " " * 65_521,
]  # fmt: skip
BAD_LINES = [line.encode() for line in BAD_LINES] + [b"\xff", b'["call",9,0,1,2,"\xff",[]]']

# Lines at the limits, which are good and find nothing but that their instances are lost.
GOOD_LINES = [
    '["call",255,18446744073709551615,0,0]', f'["call",255,0,{MOST},{MOST}]',
    f'["call",255,1,0,{MOST},"ok",{json.dumps([MOST, -MOST - 1, None, 0] * 16)}]',
    '["call",255,2,0,1,"abort",63]', f'["call",255,3,{MOST},null]', " " * 70_000,
    ' [ "call" , 255 , 4 , 1 , 2 , "ok" , [ ] ] \r', r'["\u0063all",255,5,1,2,"o\u006b",[null]]',
    '["call",255,6,1,2]' + " " * 65_518,
]  # fmt: skip
