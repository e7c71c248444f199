//! Tests: the published vectors, and the examples of paper 01. Values with `mended` needed a digit that the print lost (docs/VECTORS.md).

use crate::card::Record;
use crate::cipher::{code, decipher, encipher};
use crate::cryptogram::{arpc, completed, cryptogram, Kind};
use crate::derive::derive_labelled;
use crate::hash::hash;
use crate::hmac::hmac;
use crate::keys::{card_key, card_key_packed, counter_key, idn, script_key, seed, seed_packed, session_key};
use crate::message::{open, shape, wrapped, Opened};
use crate::octets::{from_hex, hex, to_hex, Key};
use crate::pin;
use crate::refusal::Refusal;

fn octets(digits: &str) -> Vec<u8> {
    from_hex(digits.as_bytes()).unwrap()
}

fn digits(number: &str) -> Vec<u8> {
    number.bytes().map(|d| d - b'0').collect()
}

/// The examples of 002 (000 where 002 is damaged).
struct Script {
    smi: &'static str,
    smc: &'static str,
    ac: &'static str,
    counter_key: &'static str,
    header: &'static str,
    uncoded: &'static str,
    code: &'static str,
    pin: &'static str,
    block: &'static str,
    enciphered: &'static str,
    counters: &'static str,
    enciphered_counters: &'static str,
}

const SCRIPTS: [Script; 3] = [
    Script {
        smi: "4b6af8f777c5001d6ae570d29b9d1b6043777887c1cc4db64feaa8ba0a226788",
        smc: "6a0cd3673c2ce5e8f32c5c6698829917665ff5b8920750fcec465c2ddc271c14",
        ac: "5361ad354b17186e09deb20d37586d46a64f8cddd699238f0210db7d9e6090ed",
        counter_key: "93a20f29d3e4c445e47358003302b90e223ba98e1b2a55a7c18c086634236e68",
        header: "211faa43",
        uncoded: "870445153fbb8e04",
        code: "1f14115e",
        pin: "1234567",
        block: "271234567fffffff",
        enciphered: "9073bb4f8f08f916",
        counters: "0001000100010001",
        enciphered_counters: "bdbdfd20657f13d4",
    },
    Script {
        smi: "88f8163b91e53ccd1d42e5aed806b2f2aa022e3b558051642ead998c5e1af330",
        smc: "c7d8fc5f9cb04f9b86f30f0f6e40188af9513abe0ffd684261d89424f6c4680a",
        ac: "04f9b88df553d190a2aeb2f4d9f2b6a2f4ce8eac89eab879a807866c0ec0e6f8",
        counter_key: "1dc1c864c50a8a95aba515962cad0b4213cafcbb75c3684d1f04151ca2cb75ed",
        header: "0001a2ac",
        uncoded: "810545343f45df8e04",
        code: "48b0d8a6",
        pin: "1234",
        block: "241234ffffffffff",
        enciphered: "b4d781574ded10b7",
        counters: "0002000200020002",
        enciphered_counters: "3ecefdcbf1c9d440",
    },
    Script {
        smi: "dca82274bd029bbe9e4265af9651de4ac61b55c3bc4f862f057d3ed549ce15b3",
        smc: "3aee3354c808edd7f3bca1f77186f86b550748cebe0882e072e7294f6a9660e5",
        ac: "ed7e91da7485ca6324ae0e982d699e1e3bf74df8a4691c231ab5d378c02f4367",
        counter_key: "2ee67d8b3ccf9aadadd03814e7e254398ad2c3c341ee30354d0c4025eb06aec1",
        header: "29cb34ac",
        uncoded: "8101658e04",
        code: "8114cd64",
        pin: "3247839010",
        block: "2a3247839010ffff",
        enciphered: "fea7fedcc32687d3",
        counters: "0003000300030003",
        enciphered_counters: "7b342f35259e9689",
    },
];

#[test]
fn r_008_codes() {
    for example in &SCRIPTS {
        let (key, header) = (hex(example.smi), hex(example.header));
        let message = octets(&format!("{}{}", example.uncoded, example.code));
        let opened = open(&key, &header, &message).unwrap();
        let data = &message[opened.place..opened.place + opened.length];
        assert_eq!(wrapped(&key, &header, opened.tag, data), Ok(message.clone()));
    }
}

#[test]
fn r_008_pins() {
    for example in &SCRIPTS {
        let (key, block) = (hex(example.smc), hex(example.block));
        assert_eq!(pin::write(&digits(example.pin)), Ok(block));
        assert_eq!(encipher(&key, &block), hex(example.enciphered));
        assert_eq!(decipher(&key, &hex(example.enciphered)), block);
        assert_eq!(pin::read(&block), pin::Pin::of_digits(&digits(example.pin)));
    }
}

#[test]
fn r_008_counters() {
    for example in &SCRIPTS {
        let key = counter_key(&hex(example.ac));
        assert_eq!(key, hex::<32>(example.counter_key));
        assert_eq!(encipher(&key, &hex(example.counters)), hex(example.enciphered_counters));
        assert_eq!(decipher(&key, &hex(example.enciphered_counters)), hex(example.counters));
    }
}

/// The issuer master keys of 003: 00 01 .. 1e, and the last byte.
fn issuer(last: u8) -> Key {
    std::array::from_fn(|i| if i == 31 { last } else { i as u8 })
}

#[test]
fn r_010_card_keys() {
    let a1 = digits("123456789012345671");
    let a2 = digits("6789012345673");
    let a3 = digits("98765432112341");
    for (last, pan, sequence, wanted) in [
        (0x11, &a1, 95, "fb9fb1c1cbf367fc4c4f872a360b907f18f78964efffd714d972738b47f935d9"),
        (0x12, &a1, 95, "d37cf9fc1d60e200200c0ace0a4e7adcaaa9176acde1a1e9cd5d2ea3679628ad"),
        (0x13, &a1, 95, "d02037c2e074d3867a517b5058fe38870d320ff8156eccd2f9dc27cefad05e27"),
        // as 004 A.1 prints it
        (0x14, &a1, 95, "4ea368db926da5b101c32d34f0b2480353db104e44dd57df907e00594b299dcd"),
        (0x21, &a2, 93, "91bca45ae14ce443d88e99bc407ac8297d6d1953094ff48c5116ce8f08d964ca"),
        (0x23, &a2, 93, "8c0928f2791be89202b2e5165571cd96a360bc256b27815547c7fa3ae9bdaa14"),
        // as 004 A.2 prints it
        (0x24, &a2, 93, "23df44a5dd9e2c755504dc4c736427b86478841d8fea535fb09c34a1410f3097"),
        (0x31, &a3, 98, "d8f6180a5e1b909ad222f137c7385811a869ef6a67c156296a8419d6f337ad14"),
        (0x32, &a3, 98, "3b8fd0a39151b2fba7ad72ca7fbda0ad62ce02d74ae00e3aff24b2221b5f83ca"),
        (0x33, &a3, 98, "298027ce6608a6b26b3c9157dd0457da4f144a7c4b471e5306f40793db04ed73"),
        (0x34, &a3, 98, "326236064be404964d716c47db6b8dab75d9cb0cb599db240c782db8fa140ac7"),
    ] {
        assert_eq!(card_key_packed(&issuer(last), pan, sequence), Ok(hex(wanted)));
        assert_ne!(card_key(&issuer(last), pan, sequence), Ok(hex(wanted)));
    }
    let pairs = card_key(&issuer(0x11), &a1, 95).unwrap();
    assert_eq!(to_hex(&pairs[..8]), "cd48e4ce3ff50698");
}

/// The MK_SMI of A.2.1 is misprinted; the SK_SMI that 002 A.2 prints comes of the issuer's key in two steps.
#[test]
fn r_010_script_key_of_the_issuers() {
    let master = card_key_packed(&issuer(0x22), &digits("6789012345673"), 93).unwrap();
    assert_eq!(script_key(&master, &hex("1234567871ddee5b")), hex::<32>(SCRIPTS[1].smi));
}

#[test]
fn r_010_session_keys() {
    for (master, counter, wanted) in [
        ("fb9fb1c1cbf367fc4c4f872a360b907f18f78964efffd714d972738b47f935d9", 0xdf6c, SCRIPTS[0].ac),
        ("91bca45ae14ce443d88e99bc407ac8297d6d1953094ff48c5116ce8f08d964ca", 0x125a, SCRIPTS[1].ac),
        ("d8f6180a5e1b909ad222f137c7385811a869ef6a67c156296a8419d6f337ad14", 0x126c, SCRIPTS[2].ac),
    ] {
        assert_eq!(session_key(&hex(master), counter), hex::<32>(wanted));
    }
    let master = hex("8c0928f2791be89202b2e5165571cd96a360bc256b27815547c7fa3ae9bdaa14");
    assert_eq!(script_key(&master, &hex("1234567871ddee5b")), hex::<32>(SCRIPTS[1].smc));
}

#[test]
fn r_010_script_keys_mended() {
    for (master, ac, wanted) in [
        ("d37cf9fc1d60e200200c0ace0a4e7adcaaa9176acde1a1e9cd5d2ea3679628ad", "9f64235a71ddee5b", SCRIPTS[0].smi),
        ("d02037c2e074d3867a517b5058fe38870d320ff8156eccd2f9dc27cefad05e27", "9f64235a71ddee5b", SCRIPTS[0].smc),
        ("f64ff9474739b93e7e9d6bd2ef3669fb1ae8c0ad9b2bc5eaa180dcdff7d95101", "1234567871ddee5b", SCRIPTS[1].smi),
        ("3b8fd0a39151b2fba7ad72ca7fbda0ad62ce02d74ae00e3aff24b2221b5f83ca", "0998235a71ddee5b", SCRIPTS[2].smi),
        ("298027ce6608a6b26b3c9157dd0457da4f144a7c4b471e5306f40793db04ed73", "0998235a71ddee5b", SCRIPTS[2].smc),
    ] {
        assert_eq!(script_key(&hex(master), &hex(ac)), hex::<32>(wanted));
    }
}

/// The data of 001: 01 to 40 and a last byte of its own. Offset 36 has no lower half in the print; the card writes the upper one.
fn data(last: u8) -> [u8; 65] {
    std::array::from_fn(|i| match i {
        36 => 0,
        64 => last,
        _ => i as u8 + 1,
    })
}

/// ARQC, TC and AAC of one example; the counter is the one in the data.
fn cryptograms(key: &str, last: u8, wanted: [&str; 3]) {
    for (i, kind) in [Kind::Arqc, Kind::Tc, Kind::Aac].into_iter().enumerate() {
        assert_eq!(cryptogram(&hex(key), kind, 0x2021, &data(last + i as u8)), hex(wanted[i]));
    }
}

const A2: &str = "2fc05c579fe55720a6aa0e0a1567ef38bd46fc4fe462c0a01ed485fe2743897c";

#[test]
fn r_009_cryptograms() {
    cryptograms(A2, 0x21, ["3e39dd7b3e39dd7b", "be786781be786781", "66df461d66df461d"]);
}

#[test]
fn r_009_cryptograms_mended() {
    let a1 = "0ad0b272ecaa5a5dd6917788b33609ddc55ff7641311414eff9d11cc25aa85b5";
    let a3 = "f5d49771ba7ab6b1a8110d12dcb160fda478f81b9b17f24d938be111a68ffcfa";
    cryptograms(a1, 0x01, ["137b5307137b5307", "5c75b8ec5c75b8ec", "92122fbe92122fbe"]);
    cryptograms(a3, 0x31, ["3780602937806029", "4694330046943300", "125f0aaa125f0aaa"]);
    assert_eq!(arpc(&hex(a1), &hex("137b5307137b5307"), &hex("a3feee5b")), hex("8b9cf1b78b9cf1b7"));
    assert_eq!(arpc(&hex(A2), &hex("3e39dd7b3e39dd7b"), &hex("a2fdee5c")), hex("bd663e7bbd663e7b"));
    assert_eq!(arpc(&hex(a3), &hex("3780602937806029"), &hex("a1fcee5d")), hex("5b3918725b391872"));
}

#[test]
fn r_016_idn() {
    for (key, wanted) in [
        ("4ea368db926da5b101c32d34f0b2480353db104e44dd57df907e00594b299dcd", "f8262238"),
        ("23df44a5dd9e2c755504dc4c736427b86478841d8fea535fb09c34a1410f3097", "00663246509fd5"),
        ("326236064be404964d716c47db6b8dab75d9cb0cb599db240c782db8fa140ac7", "b074461b04c6479e"),
    ] {
        let wanted = octets(wanted);
        assert_eq!(idn(&hex(key), 0x0010, wanted.len()), Ok(wanted));
    }
    for n in [0, 1, 9] {
        assert_eq!(idn(&[0; 32], 0, n), Err(Refusal::Input));
    }
}

#[test]
fn r_016_hashes() {
    for (message, wanted) in [
        (
            "1511012e04f82622380092122fbe92122fbec84cd013bc45d15b8146834b440ac1cb5b0356cccd0a07d93d7844d6d1a6ca1301020304",
            "c1872c6de7596424d8c92ecce260f7f1ff6636b01a88160872f635e0de4e6bd1",
        ),
        ("1511010908b074461b04c6479e12aa1698", "06eb19d75d4894d5257993fcd34996c2b24fa403b07e81f66609da6b0f793d50"),
        (
            "1511013208b074461b04c6479e405c75b8ec5c75b8ec3a0d0686964425395abcde18b78272cbc232895a96827d6d9dab17019ff2e7b212aa1698",
            "676a396f98f92398cc3436fbfc2cb5717399fcc9b8bb601ff7544fe8b0421875",
        ),
    ] {
        assert_eq!(to_hex(&hash(&octets(message))), wanted);
    }
}

#[test]
fn r_016_hashes_mended() {
    for (message, wanted) in [
        ("1511010504f826223801020304", "4d2f6846422cea0e25d78af8b5d5054668cc8d553d45e98f43dd20847003bfee"),
        ("151101080700663246509fd511211308", "7bff6d3d1e8d9b1916d289e50158f47eb927e75cc1d1e4bc4dded448889544b4"),
        (
            "151101310700663246509fd5405c75b8ec5c75b8ecd6aa2c6ad6b884f2923ebfece5247cdacd9863cc78f57b101f6cb725c64d550e11211308",
            "622dbab100c54abbddf831d14c471345c9dd37f0e0333c03cb0c0e38843eae88",
        ),
    ] {
        assert_eq!(to_hex(&hash(&octets(message))), wanted);
    }
}

#[test]
fn rfc_6986_and_7836() {
    let m1: Vec<u8> = (0..63).map(|i| b'0' + i % 10).collect();
    assert_eq!(to_hex(&hash(&m1)), "9d151eefd8590b89daa6ba6cb74af9275dd051026bb149a452fd84e5e57b5500");
    let m2 = octets(concat!(
        "d1e520e2e5f2f0e82c20d1f2f0e8e1eee6e820e2edf3f6e82c20e2e5fef2fa20f120eceef0ff20f1f2f0e5ebe0ece820ede020f5f0e0e1",
        "f0fbff20efebfaeafb20c8e3eef0e5e2fb"
    ));
    assert_eq!(to_hex(&hash(&m2)), "9dd2fe4e90409e5da87f53976d7405b0c0cac628fc669a741d50063c557e8f50");
    let wanted = "a1aa5f7de402d7b3d323f2991c8d4534013137010a83754fd0af6d7cd4922ed9";
    assert_eq!(to_hex(&hmac(&issuer(0x1f), &octets("0126bdb87800af214341456563780100"))), wanted);
    assert_eq!(to_hex(&derive_labelled(&issuer(0x1f), &octets("26bdb878"), &octets("af21434145656378"))), wanted);
}

// The examples of paper 01.

#[test]
fn p1_p2_card_digits() {
    assert_eq!(seed(&digits("123456789012345671"), 95), Ok(hex("384e5a0c2238475f")));
    assert_eq!(seed(&digits("123456789012"), 0), Ok(hex("000c22384e5a0c00")));
    assert_eq!(seed_packed(&digits("123456789012345671"), 95), Ok(hex("5678901234567195")));
    assert_eq!(seed_packed(&digits("123456789012"), 0), Ok(hex("0012345678901200")));
    // the example of annex A of 003
    assert_eq!(seed(&digits("12134567890000"), 0).unwrap()[..5], octets("0c0d2d4359"));
}

#[test]
fn p3_to_p7_pin_blocks() {
    assert_eq!(pin::write(&digits("1234567")), Ok(hex("271234567fffffff")));
    assert_eq!(pin::write(&digits("1234")), Ok(hex("241234ffffffffff")));
    assert_eq!(pin::write(&digits("123456789012")), Ok(hex("2c123456789012ff")));
    assert_eq!(pin::read(&hex("2412345fffffffff")), Err(Refusal::PinFormat));
    assert_eq!(pin::read(&hex("23123fffffffffff")), Err(Refusal::PinFormat));
}

#[test]
fn p8_to_p10_shapes() {
    assert_eq!(shape(&octets("81008e0400000000")), Ok(Opened { tag: 0x81, place: 2, length: 0 }));
    assert_eq!(shape(&octets("81008e0500000000")), Err(Refusal::ShapeWrong));
    let long = |field: &[u8], length| [&[0x87], field, &vec![0; length][..], &[0x8e, 4, 0, 0, 0, 0]].concat();
    assert_eq!(shape(&long(&[0x80], 128)), Err(Refusal::ShapeWrong));
    assert_eq!(shape(&long(&[0x7f], 127)), Ok(Opened { tag: 0x87, place: 2, length: 127 }));
    // Wish 1
    assert_eq!(shape(&long(&[0x81, 0x80], 128)), Ok(Opened { tag: 0x87, place: 3, length: 128 }));
    assert_eq!(shape(&long(&[0x81, 0x7f], 127)), Err(Refusal::ShapeWrong));
}

#[test]
fn p11_kinds() {
    for (kind, wanted) in [(Kind::Arqc, 0xa5), (Kind::Tc, 0x95), (Kind::Aac, 0x85)] {
        assert_eq!(completed(kind, 0, &[0x25; 65])[36], wanted);
    }
}

fn card(transaction_counter: u16) -> Record {
    let pin = pin::Pin::of_digits(&[1, 2, 3, 4]).unwrap();
    Record::new([[0; 32]; 3], transaction_counter, pin::Counters::default(), false, pin, 3)
}

#[test]
fn p12_open_at_the_last_counter() {
    assert_eq!(card(65535).open(&[0; 65]), (card(65535), Err(Refusal::CounterFull)));
}

#[test]
fn p13_withdraw_with_none_open() {
    assert_eq!(card(0).withdraw(), (card(0), Ok(())));
}

#[test]
fn p14_close_when_spoilt() {
    let spoilt = card(0).open(&[0; 65]).0.script(&[], &[]).0;
    assert!(spoilt.spoilt);
    assert_eq!(spoilt.close().1, Err(Refusal::SpoiltClosed));
}

/// The check of paper 01 on the string under the code: the fallback string does not give it.
#[test]
fn the_string_under_the_code_is_the_long_one() {
    let short = octets("211faa43870445153fbb8e048000000000000000");
    assert_eq!(short.len() % 8, 4);
    let short = [&short[..], &[0; 4]].concat();
    assert_ne!(code(&hex(SCRIPTS[0].smi), &short), Ok(hex(SCRIPTS[0].code)));
}
