"""Wrong programs that the rules must find: a title, words of what must be found, and for each file what to replace by what. A program that puts back
what it stored can meet every contract; most of these do not trouble to, since that they compile is all that is asked here."""

BEGINNING = 'steps/src/beginning.rt'
COMMITTING = 'commits/src/lib.rt'
STAGING = 'stores/src/staging.rt'
SESSIONS = 'container/src/sessions.rt'
ENTERING = 'steps/src/entering.rt'
RUNS = 'number/src/runs.rt'
GATEWAY = 'gateway/src/lib.rt'
MAKING = 'blank/src/making.rt'
UPDATE = 'update/src/lib.rt'
CLEARING = 'update/src/clearing.rt'
WRITING = 'steps/src/writing.rt'


def lines(*texts):
    return ''.join(f'    {text}\n' for text in texts)


def after(line, *texts):
    return (line, line + lines(*texts))


def before(line, *texts):
    return (line, lines(*texts) + line)


STAGED = lines('stage_table(space, c, image);')
BEGUN = lines('stage_image(space_of(c), c, image);')
SWITCHED = lines('switch_tables(image, c);')
HEADER_STORED = lines('store_header(image, next);')
SIGNATURE_STORED = lines('copy_into(image, 0, &signature);')
SIGNED_HEADER = lines('copy_into(image, HEADER, &header);')
SIGNED = lines('switch_signed(image, c, key, signer);')
RESTORED = lines('store_header(image, former);')
SIGNED_BACK = lines('store_signed(image, restored, key, signer);')
PUT = lines('put_level(space, view, image, 4, x, values);')
NEW = '// A session that remembers nothing.\n'
STAGE_IMAGE = "// And each partition's other half"
SECOND_TREE = lines('if let Some(b) = space.b {', '    begin_tree(space, b, image);', '}')


def in_begin(*texts):
    """Lines in steps::beginning::stage_image."""
    return {BEGINNING: [after(STAGED, *texts)]}


def with_helper(helper, *texts):
    """Lines there, and what they use in front of it."""
    return {BEGINNING: [(STAGE_IMAGE, '\n'.join(helper) + '\n\n' + STAGE_IMAGE), after(STAGED, *texts)]}


def with_range(*texts):
    return {BEGINNING: [('use layout::Container;\n', 'use layout::Container;\nuse number::Range;\n'), after(STAGED, *texts)]}


BY_STAGE_IMAGE = 'begin: the image is stored to by steps::beginning::stage_image'
BY_HELPER = 'begin: the image is stored to by steps::beginning::helper'
BY_COPY_INTO = 'begin: the image is stored to by number::runs::copy_into'

OTHER_STORES = [
    ('an assignment', BY_STAGE_IMAGE, in_begin('image[0] = 0;')),
    ('an assignment with an operation', BY_STAGE_IMAGE, in_begin('image[0] ^= 1;')),
    ('an index that is an element', BY_STAGE_IMAGE, in_begin('let at = [0usize; 2];', 'image[at[0]] = 0;')),
    ('a reference to one byte', BY_STAGE_IMAGE, in_begin('let byte = &mut image[0];', '*byte = 0;')),
    ('another name', BY_STAGE_IMAGE, in_begin('let other = &mut image[..];', 'other[0] = 0;')),
    ('another name for good', BY_STAGE_IMAGE, {BEGINNING: [after(SECOND_TREE, 'let other = image;', 'other[0] = 0;')]}),
    ('a part', BY_STAGE_IMAGE, in_begin('let part = &mut image[1..9];', 'part[0] = 0;')),
    ('a run', BY_COPY_INTO, in_begin('number::runs::copy_into(image, 0, b"x");')),
    ('a run into a part', BY_COPY_INTO, in_begin('number::runs::copy_into(&mut image[1..], 0, b"x");')),
    ('a helper for its crate', BY_HELPER, with_helper(['pub(crate) fn helper(bytes: &mut [u8]) {', '    bytes[0] = 0;', '}'], 'helper(image);')),
    ('a reference that is handed back', BY_STAGE_IMAGE, with_helper(
        ["fn helper<'a>(bytes: &'a mut [u8]) -> &'a mut [u8] {", '    &mut bytes[1..]', '}'], 'let rest = helper(image);', 'rest[0] = 0;')),
    ('a type by another name', BY_HELPER, with_helper(
        ["type Lent<'a> = &'a mut [u8];", '', 'fn helper(bytes: Lent) {', '    bytes[0] = 0;', '}'], 'helper(image);')),
    ('a struct that holds the image', BY_HELPER, with_helper(
        ['#[derive(Drop)]', "struct Held<'a> {", "    bytes: &'a mut [u8],", '}', '', 'fn helper(held: Held) {', '    held.bytes[0] = 0;', '}'],
        'helper(Held { bytes: image });')),
    ('a reference to the image', BY_HELPER, with_helper(
        ['fn helper(held: &mut &mut [u8]) {', '    held[0] = 0;', '}'], 'let mut lent = &mut image[..];', 'helper(&mut lent);')),
    ('a row of images', BY_HELPER, with_helper(['fn helper(held: [&mut [u8]; 1]) {', '    held[0][0] = 0;', '}'], 'helper([&mut image[..]]);')),
    ('a reference that is kept behind a pointer', 'keeps a reference to the image behind a pointer', with_helper(
        ["fn helper<'a>(held: &mut &'a mut [u8], bytes: &'a mut [u8]) {", '    *held = bytes;', '}'],
        'let mut none = [0u8; 1];', 'let mut lent = &mut none[..];', 'helper(&mut lent, image);', 'lent[0] = 0;')),
    ('a function of a library of the kit', 'begin: the image is stored to by core::str::ascii::lowercase_in_place', in_begin(
        'image.make_ascii_lowercase();')),
    ('a loop over the bytes', BY_STAGE_IMAGE, in_begin('for byte in image.iter_mut() {', '    *byte = 0;', '}')),
    ('a comparison by the library, of which some is by a method', 'hands the image to a method that its caller chooses', in_begin(
        'if image[..8] == image[8..16] {', '    return;', '}')),
    ('an image by another name', 'begin: the image is stored to by container::sessions::begin', {SESSIONS: [
        ('pub fn begin(image: &mut [u8]', 'pub fn begin(target: &mut [u8]'),
        ('image.new (calls.begin image.old session) }\n{\n    let answer = open(image);',
         'target.new (calls.begin target.old session) }\n{\n    let answer = open(target);'),
        ('    let header = header_of(image);\n' + BEGUN,
         lines('let header = header_of(target);', 'stage_image(space_of(c), c, target);', 'target[0] = 0;'))]}),
    ('a store at the boundary', 'begin: the image is stored to by gateway::teplovist_begin', {
        GATEWAY: [after(lines('let begun = sessions::begin(image, session_of(*session));'), 'image[0] = 0;')]}),
    ('a call that nobody knows', 'a public call that is lent other parameters than those known', {
        SESSIONS: [(NEW, 'pub fn touch(image: &mut [u8]) {\n    image[0] = 0;\n}\n\n' + NEW)]}),
    ('a weaker demand on a place', 'stores/src/staging.rt: does not have', {
        STAGING: [('(Free space image.old i) × (i < length image.old)', '(i < length image.old)')]}),
    ('a weaker demand on a space', 'stores/src/staging.rt: does not have', {
        STAGING: [('(OwnSpace space image.old) × (Free space image.old i)', '(Free space image.old i)')]}),
    ('another rule of whose a space is', 'stores/src/staging.rt: has OwnSpace from', {
        STAGING: [('Rattle.stores.specs.Rules.{OwnSpace, ', 'Rattle.dpfs.specs.Free.{OwnSpace};\nghost use Rattle.stores.specs.Rules.{')]}),
    ('another rule of what is free', 'stores/src/staging.rt: has Free from', {STAGING: [('specs.Free.{Free}', 'specs.Rules.{Free}')]}),
    ('a store that sometimes goes elsewhere', 'stores::staging::store: is not, statement by statement', {STAGING: [(
        lines('image[at] = value;'),
        lines('let same = image[at] == value;', 'let place = if same { 0 } else { at };', 'let kept = image[place];',
              'image[place] = if same { kept } else { value };'))]}),
    ('a second store', 'stores::staging::store: is not, statement by statement', {STAGING: [after(lines('image[at] = value;'), 'image[at] = value;')]}),
    ('a store to a part of the image', 'begin: steps::beginning::stage_image hands on something else than the whole image', in_begin(
        'let at = inactive_range(c.header).offset;', 'store(space, &mut image[1..], at, 0);')),
]

OTHER_SPACES = [
    ('an invented space', 'dpfs::Space: is made by', with_range(
        'let all = Range { offset: 0, size: 0x200 };', 'let a = space.a;', 'let wide = Space { table: all, a, b: None };',
        'let value = image[0x100];', 'store(wide, image, 0x100, 0);', 'store(wide, image, 0x100, value);')),
    ('a space by an update of another', 'dpfs::Space: is made by', with_range(
        'let all = Range { offset: 0, size: 0x200 };', 'let wide = Space { table: all, ..space };', 'store(wide, image, 0, 0);')),
    ('a space with a field changed', 'changes a part of a dpfs::Space', in_begin(
        'let mut wide = space;', 'wide.table.offset = 0;', 'store(wide, image, 0, 0);')),
    ('a space with a field changed through a reference', 'takes the address of a dpfs::Space', with_helper(
        ['fn helper(size: &mut u64) {', '    *size = 0x200;', '}'],
        'let mut wide = space;', 'helper(&mut wide.table.size);', 'store(wide, image, 0, 0);')),
    ('a space in another struct', 'changes a part of a dpfs::Space', with_helper(
        ['#[derive(Drop)]', 'struct Job {', '    space: Space,', '    at: u64,', '}', '', 'fn helper(at: u64, space: Space) -> Job {',
         '    let mut job = Job { space, at };', '    job.space.table.offset = at;', '    job', '}'],
        'let job = helper(0, space);', 'store(job.space, image, job.at, 0);')),
    ('a space that a function changes', 'has a reference to a dpfs::Space', with_helper(
        ['fn helper(space: &mut Space) {', '    *space = *space;', '}'], 'let mut wide = space;', 'helper(&mut wide);', 'store(wide, image, 0, 0);')),
    ('a container with a field changed', 'changes a part of a layout::Container', {SESSIONS: [(BEGUN, lines(
        'let mut other = c;', 'other.header.flag = 1 - c.header.flag;', 'stage_image(space_of(other), c, image);'))]}),
    ('an invented container', 'layout::Container: is made by', {SESSIONS: [(BEGUN, lines(
        'let a = c.a;', 'let h = c.header;', 'let second = c.b;', 'let other = layout::Container { header: h, a, b: second };',
        'stage_image(space_of(other), c, image);'))]}),
    ('a container of other bytes', 'begin: steps::beginning::stage_image has a container from layout::opening::open', in_begin(
        'let crafted = [0u8; 512];', 'let Ok(other) = layout::opening::open(&crafted) else {', '    return;', '};',
        'store(views::places::space_of(other), image, 0, 0);')),
    ('a container of the bytes to write', 'write: container::sessions::write has a container from container::reading::open', {SESSIONS: [
        before(lines('write_partition(image, session, c, partition, place, bytes)'),
               'let Ok(d) = super::reading::open(bytes) else {', '    return refused(session, Refusal::Stale);', '};',
               'stores::staging::store(space_of(d), image, 0, 0);')]}),
    ('a container of a part of the image', 'container::sessions::begin: is to open its image, whole and once', {SESSIONS: [(
        'calls.begin image.old session) }\n{\n    let answer = open(image);',
        'calls.begin image.old session) }\n{\n    let answer = open(&image[1..]);')]}),
    ('a session entered on a part of the image', 'container::sessions::write: is to open its image, whole and once', {SESSIONS: [(
        'partition place bytes.now) }\n{\n    let answer = enter(image, session);',
        'partition place bytes.now) }\n{\n    let answer = enter(&image[1..], session);')]}),
    ('an entering that opens a part of the image', 'steps::entering::enter: is to open its image, whole and once', {ENTERING: [(
        'entered image.now session }\n{\n    let c = open(image)?;',
        'entered image.now session }\n{\n    let c = open(&image[1..])?;')]}),
    ('a step back that opens twice', 'steps::entering::enter_back: is to open its image, whole and once', {ENTERING: [(
        'entered_back image.now session }\n{\n    let c = open(image)?;',
        'entered_back image.now session }\n{\n    let _first = open(image);\n    let c = open(image)?;')]}),
]

ONE_HEADER = 'commit: commits::store_header is to have the image from one call'

OTHER_COMMITS = [
    ('two headers', ONE_HEADER, {COMMITTING: [before(HEADER_STORED, 'store_header(image, [0u8; 256]);')]}),
    ('a header in a loop', ONE_HEADER, {COMMITTING: [(HEADER_STORED, lines(
        'let mut k = 0;', 'while k < 2 {', '    store_header(image, next);', '    k += 1;', '}'))]}),
    ('a header that calls itself', ONE_HEADER, {COMMITTING: [after(
        '{\n' + SIGNED_HEADER, 'if header[0] != image[HEADER] {', '    store_header(image, header);', '}')]}),
    ('two commits', 'commit: commits::switch_tables is to have the image from one call', {
        SESSIONS: [after(SWITCHED, 'switch_tables(image, c);')]}),
    ('each byte of the header twice', 'number::runs::copy_into: is not, statement by statement', {RUNS: [before(
        lines('    target[at + k] = *value;'), '    target[at + k] = 0;')]}),
    ('a store by commit, put back', 'commit: the image is stored to by stores::staging::store', {SESSIONS: [before(
        SWITCHED, 'let at = layout::tables::inactive_range(c.header).offset;', 'let value = image[at as usize];',
        'stores::staging::store(space_of(c), image, at, 0);', 'stores::staging::store(space_of(c), image, at, value);')]}),
    ('a store by commit itself', 'commit: the image is stored to by container::sessions::commit', {SESSIONS: [before(
        SWITCHED, 'let value = image[0x300];', 'image[0x300] = value;')]}),
    ('two signatures', 'commit_signed: number::runs::copy_into is to have the image from 2 calls', {COMMITTING: [before(
        SIGNATURE_STORED, 'copy_into(image, 0, &[0u8; 16]);')]}),
    ('a signature over the bytes behind it', 'commits::store_signed: is not, statement by statement', {COMMITTING: [(
        SIGNATURE_STORED, lines('copy_into(image, 16, &signature);'))]}),
    ('a header before its signature', 'commits::store_signed: is not, statement by statement', {COMMITTING: [(
        SIGNATURE_STORED + SIGNED_HEADER, SIGNED_HEADER + SIGNATURE_STORED)]}),
    ('a signed commit that commits twice', 'commit_signed: commits::switch_signed is to have the image from one call', {
        SESSIONS: [after(SIGNED, 'switch_signed(image, c, key, signer);')]}),
    ('a signed commit that stores the header before', 'commit_signed reaches commits::switch_tables', {
        SESSIONS: [before(SIGNED, 'switch_tables(image, c);')]}),
    ('a store by a signed commit itself', 'commit_signed: the image is stored to by container::sessions::commit_signed', {SESSIONS: [before(
        SIGNED, 'let value = image[0x10];', 'image[0x10] = value;')]}),
    ('a begin that stores the header', 'begin reaches commits::store_header', {SESSIONS: [after(
        BEGUN, 'switch_tables(image, c);', 'switch_tables(image, c);')]}),
]

STORE_OUTSIDE_IS_PUBLIC = {UPDATE: [('fn store_outside(', 'pub fn store_outside(')]}
ONE_BYTE_OUTSIDE = ['let view = views::places::staged_view(c, 0);', 'let at = view.outside;', 'update::store_outside(view, image, 0, 1, at, 0);']
NOT_AS_THEY_ARE = 'does not hand on its partition, place and bytes as they are'

OTHER_PLACES = [
    ('a write in place one byte past the range', 'update::put_outside: is not, statement by statement', {
        UPDATE: [('view.outside + x + i as u64, *value', 'view.outside + x + 1 + i as u64, *value')]}),
    ('a second store in place', 'update::store_outside: is not, statement by statement', {
        UPDATE: [after(lines('image[at] = value;'), 'image[at] = value;')]}),
    ('a store in place by begin', 'begin: the image is stored to by update::store_outside', {
        **STORE_OUTSIDE_IS_PUBLIC, **in_begin(*ONE_BYTE_OUTSIDE)}),
    ('a store in place by commit', 'commit reaches update::store_outside', {
        **STORE_OUTSIDE_IS_PUBLIC, SESSIONS: [before(SWITCHED, *ONE_BYTE_OUTSIDE)]}),
    ('a store in place by another function of a write', 'write: update::store_outside is called by', {
        **STORE_OUTSIDE_IS_PUBLIC, SESSIONS: [before(lines('write_partition(image, session, c, partition, place, bytes)'), *ONE_BYTE_OUTSIDE)]}),
    ('a weaker demand on a place in place', 'update/src/lib.rt: does not have', {
        UPDATE: [('(InPlace view x n i) × (i < length image.old)', '(i < length image.old)')]}),
    ('a weaker demand on a view', 'update/src/lib.rt: does not have', {
        UPDATE: [('(OwnView view image.old) × (x + n ≤ view.level4.size) × ', '(x + n ≤ view.level4.size) × ')]}),
    ('another rule of what is in place', 'update/src/lib.rt: has InPlace from', {
        UPDATE: [('ghost use Rattle.update.specs.Rules.{OwnView, StagedIn, WriteRules, EndsRules, InPlace};',
                  'ghost use Rattle.update.specs.Rules.{OwnView, StagedIn, WriteRules, EndsRules};\n'
                  'ghost use Rattle.update.specs.Staged.{InPlace};')]}),
    ('bytes put twice, first elsewhere', 'write: update::put_level is called by', {
        UPDATE: [before(PUT, 'put_level(space, view, image, 4, 0, values);')]}),
    ('bytes put elsewhere', f'write: update::write_blocks {NOT_AS_THEY_ARE}', {
        UPDATE: [(PUT, lines('put_level(space, view, image, 4, 0, values);'))]}),
    ('a part of the bytes', f'write: update::write_blocks {NOT_AS_THEY_ARE}', {
        UPDATE: [(PUT, lines('put_level(space, view, image, 4, x, &values[..1]);'))]}),
    ('bytes put into another level', 'write: update::write_blocks puts its bytes into another level than 4', {
        UPDATE: [(PUT, lines('put_level(space, view, image, 3, x, values);'))]}),
    ('a place that is moved on the way', f'write: container::sessions::write {NOT_AS_THEY_ARE}', {SESSIONS: [(
        lines('write_partition(image, session, c, partition, place, bytes)'),
        lines('let moved = place + 1;', 'write_partition(image, session, c, partition, moved, bytes)'))]}),
    ('another partition', f'write: steps::writing::write_partition {NOT_AS_THEY_ARE}', {WRITING: [('staged_view(c, q)', 'staged_view(c, 0)')]}),
    ('a view that is sometimes the committed one', f'write: steps::writing::write_partition {NOT_AS_THEY_ARE}', {WRITING: [(
        'let view = staged_view(c, q);', 'let view = if place == 0 { staged_view(c, q) } else { views::places::committed_view(c, q) };')]}),
    ('a block of level 4 that is emptied', 'write: update::clearing::clear_above puts bytes into a level that may be 4', {CLEARING: [(
        lines('        i - 1,', '        p + front as u64,'), lines('        i,', '        p + front as u64,'))]}),
    ('entries put into level 4', 'write: update::enter_some puts bytes into a level that may be 4', {UPDATE: [(
        'put_level(space, view, image, i, ENTRY * b, &hashes[..size]);', 'put_level(space, view, image, i + 1, ENTRY * b, &hashes[..size]);')]}),
    ('entries of a level 5', 'update/src/lib.rt: does not have', {UPDATE: [(
        '(i < 4) × (b < end) × (end ≤ blocks', '(i ≤ 4) × (b < end) × (end ≤ blocks')]}),
    ('blocks above a level 5', 'update/src/clearing.rt: does not have', {CLEARING: [(
        '(i ≤ 4) × (first ≤ last) × (last < blocks', '(i ≤ 5) × (first ≤ last) × (last < blocks')]}),
]

TWICE_BACK = 'revert: commits::store_header is to have the image from one call'

OTHER_REVERTS = [
    ('a revert that tries the former header by storing it', TWICE_BACK, {SESSIONS: [(RESTORED, lines(
        'let later = session.later;', 'store_header(image, former);', 'let Ok(_d) = open(image) else {',
        '    store_header(image, later);',
        '    return refused(session, Refusal::NothingToRevert);', '};'))]}),
    ('a revert that stores twice', TWICE_BACK, {SESSIONS: [after(RESTORED, 'store_header(image, former);')]}),
    ('a revert of two headers', TWICE_BACK, {SESSIONS: [before(RESTORED, 'store_header(image, [0u8; 256]);')]}),
    ('a revert that commits before', 'revert reaches commits::switch_tables', {SESSIONS: [before(RESTORED, 'switch_tables(image, _c);')]}),
    ('a store by a revert itself', 'revert: the image is stored to by container::sessions::revert', {SESSIONS: [before(
        RESTORED, 'let value = image[0x300];', 'image[0x300] = value;')]}),
    ('a store by a revert, put back', 'revert: the image is stored to by stores::staging::store', {SESSIONS: [before(
        RESTORED, 'let at = layout::tables::inactive_range(_c.header).offset;', 'let value = image[at as usize];',
        'stores::staging::store(space_of(_c), image, at, 0);', 'stores::staging::store(space_of(_c), image, at, value);')]}),
    ('a signed revert that stores twice', 'revert_signed: commits::store_signed is to have the image from one call', {
        SESSIONS: [after(SIGNED_BACK, 'store_signed(image, restored, key, signer);')]}),
    ('a signed revert that stores the header before', 'revert_signed reaches commits::store_header', {
        SESSIONS: [before(SIGNED_BACK, 'store_header(image, restored);')]}),
    ('a revert that signs', 'revert reaches commits::store_signed', {SESSIONS: [before(
        RESTORED, 'store_signed(image, former, [0u8; 16], Signer::Card);')]}),
    ('a commit that goes back', ONE_HEADER, {SESSIONS: [after(SWITCHED, 'store_header(image, header);')]}),
    ('a begin under another header', 'begin: steps::beginning::stage_image has a container from layout::opening::open_under', in_begin(
        'let crafted = [0u8; 256];', 'let Ok(other) = layout::opening::open_under(image, &crafted) else {', '    return;', '};',
        'store(views::places::space_of(other), image, 0, 0);')),
    ('a revert that opens another image', 'revert: container::sessions::revert has a container from layout::opening::open_under', {
        SESSIONS: [(RESTORED, lines(
            'let Ok(_d) = layout::opening::open_under(image, &former) else {',
            '    return refused(session, Refusal::NothingToRevert);', '};') + RESTORED)]}),
]

OTHER_BLANKS = [
    ('a begin that makes a blank image', 'container::sessions::begin reaches blank::', {
        '../crates.txt': [('container: number', 'container: blank number')],
        SESSIONS: [before(BEGUN, 'blank::making::make_blank(image, layout::Kind::Disa, 1);')]}),
    ('a read that makes a blank image of a copy', 'gateway::teplovist_verified reaches blank::', {GATEWAY: [before(
        lines('answer_of(reading::verified(image, partition, block))'), 'let mut copy = [0u8; 0x6000];',
        'making::make_blank(&mut copy, layout::Kind::Disa, 1);')]}),
    ('a store of a blank image elsewhere', 'make_blank: the image is stored to by', {MAKING: [(
        lines('clear(image);', 'if fill(image, kind, n) {'), lines('clear(image);', 'image[0] = 0;', 'if fill(image, kind, n) {'))]}),
]

EDITS = OTHER_STORES + OTHER_SPACES + OTHER_PLACES + OTHER_COMMITS + OTHER_REVERTS + OTHER_BLANKS

# Forms of MIR, and what is put for the first of each: nothing that the compiler writes today, or what could hide a store.
FORMS = [
    ('{"Op2": ["Offset", ', '{"Op2": ["WithAddr", '),
    ('{"Op2": [{"Add": "Unsigned"}, ', '{"Op2": ["PtrLt", '),
    ('{"Op1": ["Not", ', '{"Op1": ["PtrAddr", '),
    ('{"Opd": ', '{"Volatile": '),
    ('{"Int": {"width": 64, ', '{"PtrConst": {"width": 64, '),
    ('{"Fn": ', '{"Held": '),
    ('{"Deref": ', '{"Follow": '),
    ('"Loop"', '"Again"'),
    ('"Return"', '"Fork"'),
    (', [[0], [1]], false]}', ', [[0], [1]], true]}'),
    ('{"Array": ', '{"Row": '),
    ('{"Fields": ', '{"Union": '),
    ('{"Fn": ["number::runs::copy_into", ', '{"Fn": ["number::runs::nobody", '),
    ('["stores::staging::copy_within", {', '["stores::staging::store", {'),
    ('{"Fn": ["stores::staging::store", ', '{"Fn": ["core::slice::edits::slice+T::copy_from_slice", '),
    ('{"Fn": ["stores::staging::store", ', '{"Method": [{"Given": 0}, '),
    ('{"Assign": [', '{"Foreign": ['),
]
