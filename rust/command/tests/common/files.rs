//! Files beside the lines, and parsers that read them.

#![allow(dead_code)]

use crate::common::{fed, python, Folder, Ran};
use std::fs;

/// Five streams: passed, failed, a remainder, missing, empty.
pub const NAMES: [&str; 5] = [
    "samples/clean.cesr",
    "samples/first.cesr",
    "samples/cut.cesr",
    "gone.cesr",
    "/dev/null",
];

/// Runs with one file asked for beside the lines; what came, and the file.
pub fn beside(option: &str, arguments: &[&str], bytes: &[u8]) -> (Ran, Vec<u8>) {
    let folder = Folder::new();
    let file = folder.path().join("file");
    let file = file.to_str().expect("a readable name");
    let ran = fed(&[&["judge", option, file], arguments].concat(), bytes);
    (ran, fs::read(file).expect("the file"))
}

/// Prints a page's words, its bands and its faults, and sees that every tag is
/// closed, that nothing is fetched and that nothing is run.
pub const READ: &str = r#"
import sys
from html.parser import HTMLParser
VOID = {'meta', 'wbr'}
class Page(HTMLParser):
    def __init__(self):
        super().__init__()
        self.open, self.words, self.rects, self.titles = [], [], [], []
    def handle_starttag(self, tag, attributes):
        assert tag not in ('script', 'img', 'link', 'iframe'), tag
        got = dict(attributes)
        assert not any(key.startswith('on') or key == 'src' for key in got), got
        assert got.get('href', '#').startswith('#'), got
        if tag == 'rect' and 'band' in [of for _, of in self.open]: self.rects.append(got)
        if tag not in VOID: self.open.append((tag, got.get('class')))
    def handle_startendtag(self, tag, attributes):
        pass
    def handle_endtag(self, tag):
        assert self.open.pop()[0] == tag, tag
    def handle_data(self, data):
        tags = [tag for tag, _ in self.open]
        if 'style' in tags: return
        if 'title' in tags: self.titles.append(data)
        else: self.words.append(data)
page = Page()
page.feed(sys.stdin.read())
page.close()
assert not page.open
text = ' '.join(' '.join(page.words).split())
"#;

pub fn reads(page: &[u8], script: &str) -> String {
    python(&format!("{READ}{script}"), page)
}

/// A suite as servers read it: every case has a name, a class and a time, and
/// the sums are those of the cases.
pub const SUITE: &str = "
import sys, xml.etree.ElementTree as tree
root = tree.fromstring(sys.stdin.buffer.read())
assert root.tag == 'testsuites'
suite, = root.findall('testsuite')
cases = suite.findall('testcase')
assert all(case.get('name') and case.get('classname') and float(case.get('time')) >= 0 for case in cases)
for at in (root, suite):
    assert at.get('name') and float(at.get('time')) >= 0
    assert [int(at.get(key)) for key in ('tests', 'failures', 'errors')] == [
        len(cases), len(suite.findall('*/failure')), len(suite.findall('*/error'))]
assert suite.get('skipped') == '0'
assert not suite.findall('.//skipped')
for case in cases:
    print(case.get('name'), [(at.tag, at.get('type'), at.get('message')) for at in case if at.tag != 'system-out'])
";

/// A log with the fields that servers ask for; each result's rule, artifact
/// and region.
pub const LOG: &str = "
import json, sys, urllib.parse
log = json.load(sys.stdin)
assert log['version'] == '2.1.0' and log['$schema'].endswith('sarif-schema-2.1.0.json')
run, = log['runs']
driver = run['tool']['driver']
assert driver['name'] == 'cesr' and driver['version'] == driver['semanticVersion']
rules = driver['rules']
assert len({rule['id'] for rule in rules}) == len(rules)
for rule in rules:
    assert rule['shortDescription']['text'] and rule['fullDescription']['text'] and rule['help']['text']
artifacts = [artifact['location']['uri'] for artifact in run['artifacts']]
for result in run['results']:
    assert result['message']['text'] and result['level'] == 'error'
    if 'ruleIndex' in result: assert rules[result['ruleIndex']]['id'] == result['ruleId']
    assert result['ruleId'] in [rule['id'] for rule in rules]
    where = result['locations'][0]['physicalLocation']
    assert artifacts[where['artifactLocation']['index']] == where['artifactLocation']['uri']
    region = where.get('region', {})
    if 'startLine' in region:
        assert region['startLine'] == region['endLine'] == 1
        assert region['startColumn'] == region['byteOffset'] + 1
        assert region['endColumn'] == region['startColumn'] + region['byteLength']
call, = run['invocations']
";
