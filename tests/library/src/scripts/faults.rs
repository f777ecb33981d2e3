//! Faults of lines: the one that is told first, by shape, words and state, and its place.
use super::{all_are_told, all_end_with_faults};

const BAD_LINES: &str = "\
bad line
frob
begin x y frob
set  a 1
open 1 2
open 1 2 100 write read
open 1 2 100 read read
open 1 2 100 read write x
begin 1 s1 get
begin 1 s1 put a
begin 1 s1 replaceif a 1
begin 1 s1 replaceif a 1 2 3
begin 1 s1 getall
begin x y putall
begin 1 s1 removeall
begin 1 s1 removeall a  b
begin 1 s1 removeevery a
begin x y clear !
begin 1 s1 clearall
begin 1 s1 loadall
begin 1 s1 loadall a
begin x y loadall keep
begin x y loadall both !
reopen 1 2
readfail x
readfail x 1 2
apply 1 a
apply x but
applyfail x 2 frob
applyfail 1 but a
applylie 1 2 but a
end 1 but a
say
foreign !
audit 1
drop
more
take
drop 1 2
drop x y
more 1 a
take 1 but a
process
process x got
process 1 set
process 1 fail
process 1 fail=1 get
process 1 get loadfail=1
process 1 loadfail=1 loadsay=2
process 1 fail=1 fail=2
";

#[test]
fn tells_the_shape_of_a_line_first(rt: HostRuntime) {
    all_end_with_faults(&rt, rt.alloc(), BAD_LINES);
}

const BAD_WORDS: &str = "\
bad number
end 01
end 00
end +1
end 1000000000
readfail 1 x
readfail x y
open 1 2 100x
begin x y get !
begin 01 s0 getall !
begin 01 s0 loadall keep !
drop x
more 01
take 1000000000
process x get
process 1 loadfail=
process 1 loadfail=01 set=!
process 1 fail=
process 1 get set=1 fail=x
apply x but !
applyfail 1 but
applyfail 1 x but !
==
bad caller
begin 1 s0 get !
begin 1 s33 get a
begin 1 s01 get a
begin 1 t1 get a
begin 1 s0 clear
begin 1 s33 putall !
==
bad key
begin 1 s1 put ! !
set kkkkkkkkkkkkkkkkkkkkkkkkkkkkkkkkk 1
set ~ 1
foreign - -
say 1 a=1 !=!
say 1 =1
apply 1 but !
applyfail 1 2 but a ! a
begin 1 s1 getall a ! a
begin 1 s1 getall a=1
begin 1 s1 loadall keep a ! a
begin 1 s1 removeall ~
begin 1 s1 putall !
begin 1 s1 putall =1
begin 1 s1 putall a=1 !=1 a=2
==
repeated key
begin 1 s1 invokeall a a !
begin 1 s1 loadall replace a a !
begin 1 s1 getall a a !
begin 1 s1 removeall a b a
begin 1 s1 putall a=1 a=!
begin 1 s1 putall a=1 a
apply 1 but a b a !
applyfail 1 2 but a a
==
bad value
begin 1 s1 put a !
begin 1 s1 replaceif a 1 !
begin 1 s1 put a -
process 1 set=
process 1 loadsay=
process 1 loadsay=! fail=x
process 1 set=- fail=x
set a vvvvvvvvvvvvvvvvvvvvvvvvvvvvvvvvvvvvvvvvvvvvvvvvvvvvvvvvvvvvvvvvvvvvvvvvvvvvvvvvvvvvvvvvvvvvvvvvvvvvvvvvvvvvvvvvvvvvvvvvvvvvvvvvvvvvvvvvvvvvvvvvvvvvvvvvvvvvvvvvvvvvvvvvvvvvvvvvvvvvvvvvvvvvvvvvvvvvvvvvvvvvvvvvvvvvvvvvvvvvvvvvvvvvvvvvvvvvvvvvvvvvvvvvvvvvvvvvv
foreign a !
say 1 a=
say 1 a
say 1 a=-
say 1 a=1=2
begin 1 s1 putall a
begin 1 s1 putall a= a=
begin 1 s1 putall a=! a=1
begin 1 s1 putall a=1 b=- b=1
begin 1 s1 putall a=1=2
";

#[test]
fn tells_bad_words_from_the_left(rt: HostRuntime) {
    all_end_with_faults(&rt, rt.alloc(), BAD_WORDS);
}

const BAD_STATES: &str = "\
not open
end 9
apply 1 but a
applyfail 1 2 but
audit
foreign a 1
set a 1
begin 1 s1 get a
begin 1 s1 removeevery
drop 1
more 1
take 1
==
open twice
open 1 2 100; open 0 0 0
==
bad config stripes
open 0 0 0
open 65 1 16
==
bad config capacity
open 1 0 0
open 1 4097 16
==
bad config history
open 1 1 65537
==
set too late
open 1 2 100; begin 1 s1 get a; set a 1
open 1 2 100; foreign a -; set a 1
open 1 2 100; begin 1 s1 clear; set a 1
==
number not rising
open 1 2 100; begin 1 s1 get a; begin 1 s2 get a
open 1 2 100; begin 7 s1 get a; begin 0 s2 get a
open 1 2 100; begin 7 s1 clear; begin 7 s1 clear
open 1 2 100 read write; begin 1 s1 get a; begin 1 s1 get a
==
caller busy
open 1 2 100 read write; begin 1 s1 get a; begin 2 s1 get b
open 1 2 100 read; begin 1 s1 get a; begin 2 s2 get a; begin 3 s2 get b
open 1 2 100 read; begin 1 s1 get a; begin 2 s2 get a; drop 1; take 2; begin 3 s2 get b
open 1 2 100 read; begin 1 s1 getall a b; begin 2 s1 clear
open 1 2 100 write; begin 1 s1 put a 1; begin 2 s2 putall a=2; begin 3 s2 clear
==
no such call
open 1 2 100; read 1
open 1 2 100; begin 1 s1 get a; end 1
open 1 2 100; drop 1
open 1 2 100; more 1
open 1 2 100; take 1
open 1 2 100; begin 1 s1 get a; drop 1
open 1 2 100 read; begin 1 s1 get a; drop 1; more 1
open 1 2 100 read; begin 1 s1 get a; begin 2 s2 get a; read 1; end 1; take 2; take 2
open 1 2 100 read; begin 1 s1 get a; begin 2 s2 get a; drop 1; take 2; drop 2; more 2
open 1 2 100; begin 1 s1 getall a b; take 1
open 1 2 100; begin 1 s1 removeevery; more 1
open 1 2 100; begin 1 s1 clear; end 1
open 1 2 100 read; begin 1 s1 getall a b; drop 1; read 1
";

#[test]
fn tells_the_state_last(rt: HostRuntime) {
    all_end_with_faults(&rt, rt.alloc(), BAD_STATES);
}

const TOO_EARLY: &str = "\
not now
open 1 2 100 read write; begin 1 s1 get a; end 1
open 1 2 100 read write; begin 1 s1 get a; apply 1
open 1 2 100 read write; begin 1 s1 get a; applyfail 1 2
open 1 2 100 read write; begin 1 s1 get a; applylie 1 2
open 1 2 100 read write; begin 1 s1 get a; read 1; read 1
open 1 2 100 read write; begin 1 s1 get a; read 1; say 1
open 1 2 100 read write; begin 1 s1 get a; read 1; readfail 1 2
open 1 2 100 read write; begin 1 s1 put a 1; read 1
open 1 2 100 read write; begin 1 s1 put a 1; end 1
open 1 2 100 read write; begin 1 s1 put a 1; apply 1; apply 1
open 1 2 100 read; begin 1 s1 get a; begin 2 s2 get a; read 2
open 1 2 100 read; begin 1 s1 get a; begin 2 s2 get a; apply 2
open 1 2 100 read; begin 1 s1 get a; begin 2 s2 get a; end 2
open 1 2 100 read; begin 1 s1 get a; read 1; drop 1
open 1 2 100 read; begin 1 s1 get a; readfail 1 2; drop 1
open 1 2 100 write; begin 1 s1 put a 1; apply 1; drop 1
open 1 2 100 write; begin 1 s1 put a 1; applyfail 1 2; drop 1
open 1 2 100 read; begin 1 s1 get a; begin 2 s2 get a; drop 2
open 1 2 100 read; begin 1 s1 get a; begin 2 s2 get a; read 1; end 1; drop 2
open 1 2 100 read; begin 1 s1 get a; begin 2 s2 get a; drop 1; drop 2
open 1 2 100 read; begin 1 s1 get a; more 1
open 1 2 100 read; begin 1 s1 get a; read 1; more 1
open 1 2 100 read; begin 1 s1 get a; begin 2 s2 get a; more 2
open 1 2 100 read; begin 1 s1 get a; begin 2 s2 get a; drop 1; more 2
open 1 2 100 read; begin 1 s1 get a; begin 2 s2 get a; drop 1; take 2; more 2; more 2
open 1 2 100 read; begin 1 s1 get a; take 1
open 1 2 100 read; begin 1 s1 get a; begin 2 s2 get a; drop 1; take 2; take 2
open 1 2 100 read write; begin 1 s1 invoke a; read 1
open 1 2 100 read write; begin 1 s1 invoke a; apply 1
open 1 2 100 read write; begin 1 s1 invoke a; end 1
open 1 2 100 read write; begin 1 s1 invoke a; process 1; process 1
open 1 2 100 read write; begin 1 s1 invoke a; process 1 set=1; process 1
open 1 2 100 read write; begin 1 s1 invoke a; process 1 set=1; end 1
open 1 2 100 read write; begin 1 s1 invoke a; process 1; drop 1
open 1 2 100 read write; begin 1 s1 get a; process 1
open 1 2 100 read write; begin 1 s1 put a 1; process 1
open 1 2 100 read write; begin 1 s1 put a 1; apply 1 but a
open 1 2 100 read write; begin 1 s1 put a 1; applyfail 1 2 but
";

#[test]
fn tells_what_a_call_does_not_wait_for(rt: HostRuntime) {
    all_end_with_faults(&rt, rt.alloc(), TOO_EARLY);
}

const BULK_TOO_EARLY: &str = "\
not now
open 1 2 100 read; begin 1 s1 getall a b; more 1
open 1 2 100 read; begin 1 s1 getall a b; take 1
open 1 2 100 read; begin 1 s1 getall a b; end 1
open 1 2 100 read; begin 1 s1 getall a b; process 1
open 1 2 100 read; begin 1 s1 getall a b; apply 1
open 1 2 100 read; begin 1 s1 getall a b; apply 1 but a
open 1 2 100 read; begin 1 s1 getall a b; read 1; read 1
open 1 2 100 read; begin 1 s1 getall a b; say 1 a=1; readfail 1 2
open 1 2 100 read; begin 1 s1 getall a b; read 1; drop 1
open 1 2 100 read; begin 1 s1 getall a b; readfail 1 2; drop 1
open 1 2 100 write; begin 1 s1 putall a=1 b=2; read 1
open 1 2 100 write; begin 1 s1 putall a=1 b=2; end 1
open 1 2 100 write; begin 1 s1 putall a=1 b=2; apply 1 but a; apply 1
open 1 2 100 write; begin 1 s1 putall a=1 b=2; applyfail 1 2; applylie 1 2
open 1 2 100 write; begin 1 s1 putall a=1 b=2; applylie 1 2; applyfail 1 3 but
open 1 2 100 write; begin 1 s1 removeall a b; applyfail 1 2; drop 1
open 1 2 100 write; begin 1 s1 removeall a b; apply 1 but a b; drop 1
open 1 2 100 write; begin 1 s1 put a 1; begin 2 s2 putall a=2 b=2; more 2
open 1 2 100 write; begin 1 s1 put a 1; begin 2 s2 putall a=2; apply 2
open 1 2 100 write; begin 1 s1 put a 1; begin 2 s2 putall a=2; end 2
open 1 2 100 write; begin 1 s1 put a 1; begin 2 s2 putall a=2; take 2
open 1 2 100 write; begin 1 s1 put a 1; begin 2 s2 removeall a b; apply 2 but b; more 2
open 1 2 100 read; begin 1 s1 get a; begin 2 s2 getall a b; take 2
open 1 2 100 read; begin 1 s1 get a; begin 2 s2 getall a b; drop 2
open 1 2 100 read; begin 1 s1 get a; begin 2 s2 getall a; read 2
open 1 2 100 read; begin 1 s1 get a; begin 2 s2 getall a; end 2
open 1 2 100 read; begin 1 s1 get a; begin 2 s2 getall a; more 2
open 1 2 100 read; begin 1 s1 getall a b; begin 2 s2 getall b; drop 1; drop 2
open 1 2 100 read write; begin 1 s1 get a; begin 2 s2 put b 1; begin 3 s3 getall a b; more 3
open 1 2 100 read write; begin 1 s1 get a; begin 2 s2 put b 1; begin 3 s3 getall a b; drop 3
open 1 2 100 read write; begin 1 s1 get a; begin 2 s2 getall a b; read 2; end 2; drop 1; more 2
open 1 2 100 write; begin 1 s1 invokeall a b; apply 1
open 1 2 100 write; begin 1 s1 invokeall a b; more 1
open 1 2 100 write; begin 1 s1 invokeall a b; end 1
open 1 2 100 write; begin 1 s1 invokeall a b; process 1 set=1; apply 1
open 1 2 100 write; begin 1 s1 invokeall a b; process 1 set=1; applyfail 1 2 but a
open 1 2 100 write; begin 1 s1 invokeall a b; process 1 set=1; drop 1
open 1 2 100 write; begin 1 s1 invokeall a b; process 1 set=1; process 1; process 1
open 1 2 100 write; begin 1 s1 invokeall a b; process 1; process 1; apply 1
open 1 2 100 write; begin 1 s1 invokeall a b; process 1 set=1; process 1 remove; apply 1; end 1
open 1 2 100 write; begin 1 s1 invokeall a b; process 1 remove; process 1 set=1; apply 1; applyfail 1 2; applylie 1 3
open 1 2 100 write; begin 1 s1 put b 2; begin 2 s2 invokeall a b; more 2
open 1 2 100 write; begin 1 s1 put b 2; begin 2 s2 invokeall b; process 2
";

#[test]
fn tells_what_a_bulk_call_does_not_wait_for(rt: HostRuntime) {
    all_end_with_faults(&rt, rt.alloc(), BULK_TOO_EARLY);
}

const TOLD: &str = "\
frob => line 1, column 1: unknown word 'frob'
begin 1 s1 gett a => line 1, column 12: unknown operation 'gett'
set  a 1 => line 1, column 5: no word (single spaces separate words)
 set a 1 => line 1, column 1: no word (single spaces separate words)
set a 1  => line 1, column 9: no word (single spaces separate words)
end 1 2 => line 1, column 7: unexpected word '2'
apply 1 butt a => line 1, column 9: unexpected word 'butt'
applyfail 1 2 a => line 1, column 15: unexpected word 'a'
begin 1 s1 loadall both a => line 1, column 20: unexpected word 'both'
begin x s1 clear a => line 1, column 18: unexpected word 'a'
open 1 2 100 fast => line 1, column 14: unexpected word 'fast'
process 1 get put => line 1, column 15: unexpected word 'put'
begin 1 s1 get => line 1, column 16: wrong number or order of words
process 1 get loadfail=1 => line 1, column 26: wrong number or order of words
open 1 2 100; read 01 => line 2, column 6: bad number '01' (0 to 999999999, without leading zeros)
open 1 2 100x => line 1, column 10: bad number '100x' (0 to 999999999, without leading zeros)
process 1 get fail=x => line 1, column 15: bad number 'fail=x' (0 to 999999999, without leading zeros)
begin 1 s33 get a => line 1, column 9: bad caller 's33' (s1 to s32)
begin 1 s1 put a! 1 => line 1, column 16: bad key 'a!' (1 to 32 letters, digits, _ or .)
foreign - - => line 1, column 9: bad key '-' (1 to 32 letters, digits, _ or .)
begin 1 s1 getall a=1 => line 1, column 19: bad key 'a=1' (1 to 32 letters, digits, _ or .)
begin 1 s1 putall a=1 b!=2 => line 1, column 23: bad key 'b!=2' (1 to 32 letters, digits, _ or .)
begin 1 s1 replaceif a 1 ! => line 1, column 26: bad value '!' (1 to 256 letters, digits, _ or .; or ~ for the empty value; a pair is KEY=VALUE)
begin 1 s1 putall a=1 b=! => line 1, column 23: bad value 'b=!' (1 to 256 letters, digits, _ or .; or ~ for the empty value; a pair is KEY=VALUE)
say 1 a=1 b => line 1, column 11: bad value 'b' (1 to 256 letters, digits, _ or .; or ~ for the empty value; a pair is KEY=VALUE)
process 1 loadsay=- set=- => line 1, column 21: bad value 'set=-' (1 to 256 letters, digits, _ or .; or ~ for the empty value; a pair is KEY=VALUE)
foreign a ! => line 1, column 11: bad value '!' (1 to 256 letters, digits, _ or .; or ~ for the empty value; a pair is KEY=VALUE)
begin 1 s1 putall a=1 b=2 a=3 => line 1, column 27: repeated key 'a=3'
begin 1 s1 getall s1 getall a s1 => line 1, column 31: repeated key 's1'
begin 1 s1 loadall keep a keep a => line 1, column 32: repeated key 'a'
apply 1 but a b a => line 1, column 17: repeated key 'a'
applyfail 1 2 but 1 2 1 => line 1, column 23: repeated key '1'
audit => line 1, column 1: not open 'audit' (a script begins with open)
open 1 2 100; open 1 2 100 => line 2, column 1: open twice 'open'
open 0 2 100 => line 1, column 6: bad config stripes '0' (1 to 64)
open 1 5000 100 => line 1, column 8: bad config capacity '5000' (1 to 4096)
open 1 2 15 => line 1, column 10: bad config history '15' (16 to 65536)
open 1 2 100; foreign a 1; set a 1 => line 3, column 1: set too late 'set' (it fits before the first begin, foreign, invalidate or reopen)
open 1 2 100; begin 2 s1 get a; begin 2 s1 get a => line 3, column 7: number not rising '2' (the number of each call is above those before)
open 1 2 100 read; begin 1 s1 get a; begin 2 s1 get a => line 3, column 9: caller busy 's1' (its call isn't over)
open 1 2 100; end 9 => line 2, column 5: no such call '9'
open 1 2 100 read; begin 1 s1 get a; apply 1 => line 3, column 1: not now 'apply' (it fits while the call waits for its writer; with but, if the call has many keys)
open 1 2 100 read; begin 1 s1 get a; process 1 get => line 3, column 1: not now 'process' (it fits while the call waits for its processor)
open 1 2 100 write; begin 1 s1 put a 1; readfail 1 2 => line 3, column 1: not now 'readfail' (it fits while the call waits for its loader)
open 1 2 100 read; begin 1 s1 get a; end 1 => line 3, column 1: not now 'end' (it fits if the call has a started key, and waits for no loader, writer or processor)
open 1 2 100 read; begin 1 s1 get a; read 1; drop 1 => line 4, column 1: not now 'drop' (it fits if no key is joined, and nothing has answered for a started key)
open 1 2 100 read; begin 1 s1 get a; take 1 => line 3, column 1: not now 'take' (it fits if a key is joined, and none is started)
open 1 2 100 read; begin 1 s1 get a; more 1 => line 3, column 1: not now 'more' (it fits if a key was put off or told to retry, and none is started or joined)
open 1 2 100 read; begin 1 s1 get a; reopen 1 2 100 => line 3, column 1: not now 'reopen' (it fits if no call is under way)
audit\r => line 1, column 6: carriage return (lines end with a line feed alone)
set\ta 1 => line 1, column 4: tab (single spaces separate words)
\u{feff}audit => line 1, column 1: byte order mark (save the script without one)
frob\u{7f} => line 1, column 5: bad byte
";

#[test]
fn tells_where_in_a_line_its_fault_is(rt: HostRuntime) {
    all_are_told(&rt, rt.alloc(), TOLD);
}
