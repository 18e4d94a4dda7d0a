//! The suite of `--junit` and the log of `--sarif`, with the fields that servers
//! ask for.

mod common;
#[path = "common/files.rs"]
mod files;

use common::python;
use files::{beside, LOG, NAMES, SUITE};

#[test]
fn a_suite_has_a_case_for_each_stream() {
    let (ran, suite) = beside("--junit", &NAMES, b"");
    assert_eq!(ran.status, 2);
    let told = "samples/clean.cesr []
samples/first.cesr [('failure', 'failed', 'text (detected), 5 items, 4 accepted, 1 refused, no remainder; first refused 8 at 80')]
samples/cut.cesr [('failure', 'failed', 'text (detected), 1 item, 1 accepted, 0 refused, remainder 4 from 8')]
gone.cesr [('error', 'error', 'No such file or directory')]
/dev/null [('error', 'empty', 'the stream is empty: nothing was judged')]
";
    assert_eq!(python(SUITE, &suite), told);
    let words = "print(suite.findall('testcase')[1].find('failure').text)";
    let said = python(&format!("{SUITE}{words}"), &suite);
    assert!(said.contains("item 2: refused 8 at 80, pad bit or lead byte not zero"));
}

#[test]
fn a_log_has_a_result_for_each_refusal() {
    let (ran, log) = beside("--sarif", &NAMES, b"");
    assert_eq!(ran.status, 2);
    let script = "
for result in run['results']:
    where = result['locations'][0]['physicalLocation']
    region = where.get('region', {})
    print(result['ruleId'], where['artifactLocation']['uri'], region.get('byteOffset'), region.get('byteLength'))
print([artifact['properties']['outcome'] for artifact in run['artifacts']])
assert run['artifacts'][0]['hashes']['sha-256'].startswith('d35497b2') and run['artifacts'][0]['length'] == 136
assert call['executionSuccessful'] is False and call['exitCode'] == 2
assert len(call['toolExecutionNotifications']) == 2
";
    let told = "cesr-8 samples/first.cesr 80 44\n\
                cesr-4 samples/cut.cesr 8 52\ncesr-not-judged gone.cesr None None\n\
                cesr-not-judged file:///dev/null None None\n\
                ['passed', 'failed', 'failed', 'error', 'empty']\n";
    assert_eq!(python(&format!("{LOG}{script}"), &log), told);
    let (ran, log) = beside("--sarif", &["samples/clean.cesr"], b"");
    let script = "
assert run['results'] == [] and call['executionSuccessful'] is True and call['exitCode'] == 0
";
    let said = python(&format!("{LOG}{script}"), &log);
    assert_eq!((ran.status, said.as_str()), (0, ""));
    // Items of 8, 8, 12 and 4 characters, each refused, and what is left.
    let stream = b"-AAB0AAA-AABMAA!-AAC-_AAABAAMQAA_AAA";
    let (_, log) = beside("--sarif", &[], stream);
    let script = "
for result in run['results']:
    region = result['locations'][0]['physicalLocation']['region']
    print(result['ruleId'], region['byteOffset'], region['byteLength'], result['properties'])
";
    let told = "cesr-4 0 8 {'item': 0, 'place': 4}\ncesr-5 8 8 {'item': 1, 'place': 15}\n\
                cesr-7 16 12 {'item': 2, 'place': 20}\ncesr-8 28 4 {'item': 3, 'place': 28}\n\
                cesr-6 32 4 {'place': 32}\n";
    assert_eq!(python(&format!("{LOG}{script}"), &log), told);
    // A binary stream has bytes and no lines.
    let (_, log) = beside("--sarif", &["samples/first-binary.cesr"], b"");
    let script = "
result, = run['results']
assert result['locations'][0]['physicalLocation']['region'] == {'byteOffset': 60, 'byteLength': 33}
";
    assert_eq!(python(&format!("{LOG}{script}"), &log), "");
}
