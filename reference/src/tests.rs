//! Cases that were worked out by hand from docs/.

use crate::run::run;
use crate::scripts;

/// Carries out a script and compares its record. In the record a line that ends in `error`
/// stands for any error.
fn check(script: &str, record: &str) {
    let mut out = Vec::new();
    run(script.as_bytes(), &mut out).expect("a vector takes every record");
    let out = String::from_utf8(out).expect("a record is text");
    let weighed: Vec<&str> = out
        .lines()
        .map(|line| line.find(": error ").map_or(line, |at| &line[..at + 7]))
        .collect();
    let wanted: Vec<&str> = record.lines().collect();
    assert_eq!(weighed, wanted);
}

const MEMORY: &str = "card m memory 4 2 1\nlives m 0 both 100\nlives m 1 both 100\n";
const MEMORY_DONE: &str = "1: ok\n2: ok\n3: ok\n";

fn on_memory(script: &str, record: &str) {
    check(&format!("{MEMORY}{script}"), &format!("{MEMORY_DONE}{record}"));
}

#[test]
fn puts_one_after_the_other() {
    on_memory(
        "put m 0 1234\nput m 1 30\nput m 1 31\nlock m on\nput m 1 31\nlock m off\nput m 3 0000\ntake m 0 8\nbuffer m\nshow m\n",
        "4: ok wipes=0 words=1\n5: ok wipes=0 words=1\n6: ok wipes=1 words=1\n7: ok\n8: ok wipes=0 words=0\n9: ok\n\
         10: ok wipes=0 words=2\n11: ok bytes=1231FF0000FFFFFF\n12: ok bytes=00FFFFFF\n\
         13: ok block-size=4 blocks=2 supply=good\n block 0 open even=95 odd=95\n block 1 open even=99 odd=99\n",
    );
}

#[test]
fn puts_at_the_capacity() {
    on_memory(
        "put m 8 -\nput m 8 00\nput m 9 -\nplan m 4294967295 00\nbuffer m\n",
        "4: ok wipes=0 words=0\n5: fault 1 place=8 lanes=- wipes=0 words=0\n6: fault 1 place=9 lanes=- wipes=0 words=0\n\
         7: fault 1 place=4294967295 lanes=- wipes=0 words=0\n8: ok bytes=AAAAAAAA\n",
    );
}

#[test]
fn a_worn_lane_stops_a_put() {
    on_memory(
        "put m 0 1234\nput m 1 30\nput m 1 31\nlives m 0 odd 0\nput m 0 00\ntake m 0 4\nshow m\n",
        "4: ok wipes=0 words=1\n5: ok wipes=0 words=1\n6: ok wipes=1 words=1\n7: ok\n\
         8: fault 6 place=0 lanes=odd wipes=0 words=1\n9: ok bytes=0031FFFF\n\
         10: ok block-size=4 blocks=2 supply=good\n block 0 open even=95 odd=0\n block 1 open even=100 odd=100\n",
    );
}

#[test]
fn a_worn_wipe_stops_a_put() {
    on_memory(
        "put m 0 1234\nlives m 0 both 0\nput m 0 FF\ntake m 0 4\nbuffer m\n",
        "4: ok wipes=0 words=1\n5: ok\n6: fault 6 place=0 lanes=both wipes=1 words=0\n7: ok bytes=1234FFFF\n8: ok bytes=FF34FFFF\n",
    );
}

#[test]
fn a_short_buffer_and_a_large_one() {
    on_memory(
        "put m 0 00 3\nput m 8 00 3\nbuffer m\nput m 0 00 6\nbuffer m\nput m 0 00 4294967295\nplan m 0 - 0\nbuffer m\n",
        "4: fault 3 place=0 lanes=- wipes=0 words=0\n5: fault 1 place=8 lanes=- wipes=0 words=0\n6: ok bytes=AAAAAA\n\
         7: ok wipes=0 words=1\n8: ok bytes=00FFFFFFAAAA\n9: ok wipes=0 words=0\n10: fault 3 place=0 lanes=- wipes=0 words=0\n11: ok bytes=-\n",
    );
}

#[test]
fn clears_count_in_blocks() {
    on_memory(
        "put m 2 00000000\nclear m 0 2\nclear m 0 2\nclear m 2 0\nclear m 4294967295 4294967295\n",
        "4: ok wipes=0 words=2\n5: ok wipes=2 words=0\n6: ok wipes=0 words=0\n7: ok wipes=0 words=0\n\
         8: fault 1 place=17179869180 lanes=- wipes=0 words=0\n",
    );
}

#[test]
fn faults_come_in_their_order() {
    on_memory(
        "lock m on\nsupply m low\nword m 7 0\nword m 5 0\nword m 6 0\nlock m off\nword m 6 0\nwipe m 2\nwipe m 1\nwipe m 4294967295\ntake m 0 9\n",
        "4: ok\n5: ok\n6: fault 1 place=7 lanes=-\n7: fault 2 place=5 lanes=-\n8: fault 4 place=6 lanes=-\n9: ok\n10: fault 5 place=6 lanes=-\n\
         11: fault 1 place=8 lanes=-\n12: fault 5 place=4 lanes=-\n13: fault 1 place=17179869180 lanes=-\n14: fault 1 place=0 lanes=-\n",
    );
}

#[test]
fn a_fence_marks_and_a_window_counts_from_its_first() {
    on_memory(
        "layer m fence\nmark m 1 on\nsupply m low\nword m 7 0\nword m 5 0\nword m 6 0\nword m 0 0\nmark m 2 on\n",
        "4: ok\n5: ok\n6: ok\n7: fault 1 place=7 lanes=-\n8: fault 2 place=5 lanes=-\n9: fault 4 place=6 lanes=-\n10: fault 5 place=0 lanes=-\n\
         11: fault 1 place=8 lanes=-\n",
    );
    on_memory(
        "layer m window 1 1\nlives m 1 both 0\nword m 0 0\nshow m\nlayer m window 1 2\ntake m 0 1\ntake m 0 0\nlayer m fence\n",
        "4: ok\n5: ok\n6: fault 6 place=0 lanes=both\n7: ok block-size=4 blocks=1 supply=good\n block 0 open even=0 odd=0\n8: ok\n\
         9: fault 1 place=0 lanes=-\n10: ok bytes=-\n11: error\n",
    );
}

#[test]
fn a_device_that_is_armed_and_not_confirmed() {
    check(
        "card s series2 4 2 1\nraw s word write 0 0x2020\nraw s word write 0 0x1212\nraw s word read 0\nraw s byte read 1\nraw s odd read 0\nslot s read 0\n",
        "1: ok\n2: ok\n3: ok\n4: ok value=0xB0B0\n5: ok value=0xFFB0\n6: ok value=0xB0FF\n7: ok value=0xB0B0\n",
    );
}

#[test]
fn a_job_under_low_supply() {
    check(
        "card s series2 4 2 1\nlives s 0 both 9\nsupply s low\nraw s word write 0 0x4040\nraw s word write 0 0\nraw s word read 0\nsupply s good\n\
         raw s word write 0 0x4040\nraw s word write 0 0\nraw s word read 0\nraw s word write 0 0x5050\nraw s word read 0\nput s 0 00\nslot s read 0\nshow s\n",
        "1: ok\n2: ok\n3: ok\n4: ok\n5: ok\n6: ok value=0x8888\n7: ok\n8: ok\n9: ok\n10: ok value=0x8888\n11: ok\n12: ok value=0xFFFF\n\
         13: ok wipes=0 words=1\n14: ok value=0x8080\n15: ok block-size=4 blocks=2 supply=good\n block 0 open even=8 odd=8\n block 1 open even=0 odd=0\n",
    );
}

#[test]
fn codes_go_by_the_word() {
    check(
        "card s series2 4 2 1\nraw s word write 0 0x9090\nraw s word read 0\nraw s word read 2\nraw s word read 3\nraw s byte read 3\ntake s 0 2\nraw s word read 0\n",
        "1: ok\n2: ok\n3: ok value=0x8989\n4: ok value=0xA2A2\n5: ok value=0xA2A2\n6: ok value=0xFFA2\n7: ok bytes=FFFF\n8: ok value=0xFFFF\n",
    );
}

#[test]
fn worn_lanes_of_a_simulated_card() {
    check(
        "card h series100 4 1 1 12345678\nlives h 0 even 2\nput h 0 FF\ntake h 0 4\nword h 2 0xFFFF\nslot h read 0\n",
        "1: ok\n2: ok\n3: fault 6 place=0 lanes=odd wipes=1 words=0\n4: ok bytes=FF00FF00\n5: fault 6 place=2 lanes=odd\n6: ok value=0x9080\n",
    );
}

#[test]
fn waits_fall_by_reads_of_status_and_by_samples() {
    check(
        "card s series2 4 1 1\nlives s 0 both 9\nwaits s 3 0\nslot s write 0 0x4040\nslot s write 0 0xFFF0\nraw s word read 0\nraw s byte read 0\n\
         slot s sample\nslot s read 0\nslot s read 0\nwaits s 4294967295 1\nword s 0 0xFF00\nslot s read 0\ntake s 0 2\n",
        "1: ok\n2: ok\n3: ok\n4: ok\n5: ok\n6: ok value=0x0000\n7: ok value=0xFF00\n8: ok ready=false\n9: ok value=0x0080\n10: ok value=0x8080\n\
         11: ok\n12: ok\n13: ok value=0x8080\n14: ok bytes=00FF\n",
    );
}

#[test]
fn addresses_wrap_by_the_kind_of_card() {
    check(
        "card s series2 4 1 1 01020304\ncard h series100 4 1 1 01020304\nraw s word read 33554434\nraw s word read 4\nraw h word read 6\nraw h byte read 7\nraw s byte read 3\n\
         raw s word read 4294967295\nraw h word read 4294967295\n",
        "1: ok\n2: ok\n3: ok value=0x0403\n4: ok value=0xFFFF\n5: ok value=0x0403\n6: ok value=0xFF03\n7: ok value=0xFF04\n8: ok value=0xFFFF\n9: ok value=0x0403\n",
    );
}

#[test]
fn the_protect_pin_locks_and_keeps_bytes_away() {
    check(
        "card s series2 4 1 1\nlives s 0 both 9\nlock s on\nslot s pin\nraw s word write 0 0x9090\nraw s word read 0\nput s 0 00\nput s 0 -\nshow s\nlock s off\nput s 0 00\n",
        "1: ok\n2: ok\n3: ok\n4: ok pin=on\n5: ok\n6: ok value=0xFFFF\n7: fault 4 place=0 lanes=- wipes=0 words=0\n8: ok wipes=0 words=0\n\
         9: ok block-size=4 blocks=1 supply=good\n block 0 locked even=9 odd=9\n10: ok\n11: ok wipes=0 words=1\n",
    );
}

#[test]
fn cards_without_blocks_and_geometries_outside_the_limits() {
    check(
        "card e series2 4 2 1 FF 7\nslot e size\nshow e\ntake e 0 0\nput e 0 00\nraw e word read 0\nlives e 0 both 1\nslot e sample\ncard x memory 3 1 1\nshow x\n\
         card y memory 4 1 1 FF 4294967295\nshow y\n",
        "1: ok\n2: ok block-size=4 blocks-per-pair=2 pairs=0\n3: ok block-size=4 blocks=0 supply=good\n4: ok bytes=-\n5: fault 1 place=0 lanes=- wipes=0 words=0\n\
         6: ok value=0xFFFF\n7: fault 1 place=0 lanes=-\n8: ok ready=true\n9: fault 7 place=0 lanes=-\n10: error\n11: ok\n12: ok block-size=4 blocks=0 supply=good\n",
    );
}

#[test]
fn lines_words_and_errors() {
    check(
        "# nothing\n\n \t\ncard m memory 4 1 1 0aF0 # a card\r\nshow\tm\r\nshow m x\nbuffer m\nwaits m 1 1\ntake m 0x0 0004\ntake m 0X0 4\ntake m 0 4294967296\n\
         put m 0 F\nput m 0 -\nmark m 0 on\ncard m memory 3 1 1\nword m 0 65536\nword m 0 0x0000000FFFF\nlock m of",
        "4: ok\n5: ok block-size=4 blocks=1 supply=good\n block 0 open even=0 odd=0\n6: error\n7: error\n8: error\n9: ok bytes=0AF00AF0\n10: error\n11: error\n\
         12: error\n13: ok wipes=0 words=0\n14: error\n15: error\n16: error\n17: fault 6 place=0 lanes=both\n18: error\n",
    );
}

#[test]
fn a_series_100_card_has_no_switches() {
    check(
        "card h series100 2 1 1\nlock h on\nsupply h low\nslot h pin\nwaits h 1 1\nslot h size\nslot h read 1\nslot h read 2\n",
        "1: ok\n2: error\n3: error\n4: ok pin=off\n5: ok\n6: ok block-size=2 blocks-per-pair=1 pairs=1\n7: fault 1 place=1 lanes=-\n8: fault 1 place=2 lanes=-\n",
    );
}

#[test]
fn the_largest_card_is_kept_as_what_differs() {
    check(
        "card m memory 131072 16 10 00FF\nlives m 159 both 9\nput m 20971519 00\nput m 20971518 01\ntake m 20971516 4\nclear m 0 4294967295\n",
        "1: ok\n2: ok\n3: ok wipes=0 words=1\n4: fault 6 place=20840462 lanes=both wipes=1 words=8\n5: ok bytes=FFFFFFFF\n6: fault 1 place=0 lanes=- wipes=0 words=0\n",
    );
}

#[test]
fn the_same_seed_makes_the_same_script() {
    for seed in 0..200 {
        let script = scripts::script(seed);
        assert_eq!(script, scripts::script(seed));
        let mut out = Vec::new();
        run(&script, &mut out).expect("a vector takes every record");
        assert!(!out.is_empty());
    }
}
