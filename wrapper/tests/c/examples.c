/*
 * Every entry and every helper of the C header, on examples A to H of the scope document; C99 and C++11. Prints what
 * fails, and how much passed.
 */
#include <birnsket.h>

#include <stdio.h>
#include <string.h>

static int passed = 0;
static int failed = 0;

static void expect(const char *what, int good)
{
    if (good) {
        passed++;
    } else {
        failed++;
        printf("FAILED: %s\n", what);
    }
}

/* Whether the fields of a result of `size` bytes are the `count` wanted, and then 0. */
static int fields(const void *result, size_t size, const uint32_t *wanted, size_t count)
{
    uint32_t field;
    size_t at;
    for (at = 0; at < size / sizeof field; at++) {
        memcpy(&field, (const uint8_t *)result + at * sizeof field, sizeof field);
        if (field != (at < count ? wanted[at] : 0)) {
            return 0;
        }
    }
    return size % sizeof field == 0;
}

/* Whether a refused result has that number and record, and nothing else. */
static int refused(const void *result, size_t size, uint32_t number, uint32_t record)
{
    uint32_t wanted[2];
    wanted[0] = number;
    wanted[1] = record;
    return fields(result, size, wanted, 2);
}

#define REFUSED(result, number, record) refused(&(result), sizeof(result), number, record)
#define DONE(result) ((result).number == HUB_DONE && (result).record == 0)

/* Label 1 boundary, 2 high, every other low. */
static uint8_t usual[HUB_POLICY_LENGTH];
static const uint8_t low[HUB_POLICY_LENGTH] = {HUB_LOW};
static uint8_t table[HUB_TABLE_LENGTH];

/* The itinerary of example B; its first two records are that of A. */
static uint8_t example[3 * HUB_RECORD_LENGTH];
static const size_t two = 2 * HUB_RECORD_LENGTH;

/* Where record `number` of an itinerary starts. */
static size_t record_at(size_t number)
{
    return HUB_RECORD_LENGTH * (number - 1);
}

static void write_example(void)
{
    usual[1] = HUB_BOUNDARY;
    usual[2] = HUB_HIGH;
    hub_write_record(example + record_at(1), HUB_AMBIENT, 1, 0, 0, 0);
    hub_write_record(example + record_at(2), HUB_AMBIENT, 2, 1, 1, 0);
    hub_write_record(example + record_at(3), HUB_OUT, 64, 0, 2, 0);
}

static void helpers(void)
{
    const uint8_t record[HUB_RECORD_LENGTH] = {4, 127, 63, 0, 0x34, 0x12, 0xe7, 0x03};
    const uint8_t step[HUB_STEP_LENGTH] = {0xff, 0x03, 0x00, 0x04};
    uint8_t bytes[HUB_RECORD_LENGTH];
    HubRecord fields_of;
    HubStep step_of;
    memset(bytes, 0xff, sizeof bytes);
    hub_write_record(bytes, HUB_OPEN, 127, 63, 0x1234, 999);
    expect("a record is written", memcmp(bytes, record, sizeof record) == 0);
    fields_of = hub_read_record(record);
    expect("a record is read", fields_of.kind == HUB_OPEN && fields_of.label == 127);
    expect("its name and parent too", fields_of.name == 63 && fields_of.parent == 0x1234);
    expect("and its client", fields_of.client == 999);
    memset(bytes, 0xff, sizeof bytes);
    hub_write_step(bytes, 1023, 1024);
    expect("a step is written", memcmp(bytes, step, sizeof step) == 0 && bytes[HUB_STEP_LENGTH] == 0xff);
    step_of = hub_read_step(step);
    expect("a step is read", step_of.actor == 1023 && step_of.partner == 1024);
}

static void causes(void)
{
    const char *unknown = hub_cause(HUB_REFUSED_ROOM + 1);
    uint32_t number, other;
    int alike = 0;
    expect("done has a word", strcmp(hub_cause(HUB_DONE), "done") == 0);
    expect("6 in words", strcmp(hub_cause(HUB_REFUSED_CLIMB), "climbing doesn't reach 0") == 0);
    expect("a number that is none", strcmp(unknown, "unknown cause") == 0);
    expect("a number far away", strcmp(hub_cause(0xffffffffu), unknown) == 0);
    for (number = HUB_DONE; number <= HUB_REFUSED_ROOM; number++) {
        for (other = number + 1; other <= HUB_REFUSED_ROOM + 1; other++) {
            alike += strcmp(hub_cause(number), hub_cause(other)) == 0;
        }
    }
    expect("no two causes alike", alike == 0);
}

static void example_a(void)
{
    uint8_t sheet[sizeof example];
    HubValidateResult validated = hub_validate(example, two);
    HubClimbResult climbed = hub_climb(example, two, usual, sizeof usual, 2);
    HubMakeResult made;
    HubCheckResult checked;
    HubVerdictResult judged;
    HubExposedResult asked;
    HubSheetResult shown;
    HubRowResult row;
    expect("A has two records", DONE(validated) && validated.records == 2);
    expect("A: record 2 stands in 1, a boundary", DONE(climbed) && climbed.label == 1 && climbed.boundary == 1);
    climbed = hub_climb(example, two, low, sizeof low, 2);
    expect("A: without boundaries", DONE(climbed) && climbed.label == 1 && climbed.boundary == 0);
    climbed = hub_climb(example, two, usual, sizeof usual, 1);
    expect("A: nothing above record 1", DONE(climbed) && climbed.label == 0 && climbed.boundary == 0);
    climbed = hub_climb(example, two, usual, sizeof usual, 3);
    expect("A: no record 3", DONE(climbed) && climbed.label == 0 && climbed.boundary == 0);
    memset(table, 0xff, sizeof table);
    made = hub_make(example, two, usual, sizeof usual, table, sizeof table);
    expect("A has five bits", DONE(made) && made.bits == 5);
    checked = hub_check(example, two, usual, sizeof usual, table, sizeof table);
    expect("A: the made table is accepted", DONE(checked));
    judged = hub_verdict(example, two, usual, sizeof usual, table, sizeof table);
    expect("A is sealed", DONE(judged) && judged.verdict == HUB_SEALED && judged.label == 0);
    asked = hub_exposed(example, two, usual, sizeof usual, table, sizeof table);
    expect("A is not exposed", DONE(asked) && asked.exposed == 0);
    memset(sheet, 0xff, sizeof sheet);
    shown = hub_sheet(example, two, table, sizeof table, sheet, two);
    expect("A: the sheet shows record 1", DONE(shown) && memcmp(sheet, example, HUB_RECORD_LENGTH) == 0);
    expect("A: and not record 2", hub_read_record(sheet + record_at(2)).kind == HUB_GONE);
    row = hub_row(table, sizeof table, 1);
    expect("A: row 1", DONE(row) && row.offset == 16 && row.length == HUB_ROW_LENGTH && table[row.offset] == 4);
    row = hub_row(table, sizeof table, 64);
    expect("A: no row 64", DONE(row) && row.offset == 0 && row.length == 0);
}

/* Every call that can be refused, refused, with nothing written. */
static void refusals(void)
{
    uint8_t work[sizeof example], bytes[sizeof example];
    const uint8_t script[] = {3, 0, 1, 0};
    HubClimbResult climbed = hub_climb(example, 7, usual, 63, 1);
    HubSheetResult shown;
    HubMakeResult made;
    HubCheckResult checked;
    HubVerdictResult judged;
    HubExposedResult asked;
    HubRunResult ran;
    HubCopyResult copied;
    HubMovesResult listed;
    HubJoinResult joined;
    HubScreenResult screened;
    expect("seven bytes", REFUSED(climbed, HUB_REFUSED_LENGTH, 0));
    climbed = hub_climb(example, two, usual, 63, 2);
    expect("a climb with a short policy", REFUSED(climbed, HUB_REFUSED_POLICY, 0));
    memset(bytes, 7, sizeof bytes);
    shown = hub_sheet(example, two, table, sizeof table, bytes, two - 1);
    expect("a short sheet", REFUSED(shown, HUB_REFUSED_SHEET, 0));
    made = hub_make(example, two, usual, sizeof usual, bytes, sizeof bytes);
    expect("a short table", REFUSED(made, HUB_REFUSED_TABLE, 0) && bytes[0] == 7);
    checked = hub_check(example, two, usual, 63, table, sizeof table);
    expect("a short policy", REFUSED(checked, HUB_REFUSED_POLICY, 0));
    memset(table, 0, sizeof table);
    judged = hub_verdict(example, two, usual, sizeof usual, table, sizeof table);
    expect("a table that doesn't hold", REFUSED(judged, HUB_REFUSED_HOLDS, 0));
    asked = hub_exposed(example, two, usual, sizeof usual, table, sizeof table);
    expect("nor for this call", REFUSED(asked, HUB_REFUSED_HOLDS, 0));
    asked = hub_exposed(example, two, usual, sizeof usual, table, 1543);
    expect("a table one byte short", REFUSED(asked, HUB_REFUSED_TABLE, 0));
    memcpy(work, example, sizeof work);
    ran = hub_run(work, sizeof work, script, sizeof script, bytes, 2);
    expect("too many answers", REFUSED(ran, HUB_REFUSED_SCRIPT, 0));
    copied = hub_copy(work, sizeof work, 3);
    expect("a copy of no copier", REFUSED(copied, HUB_REFUSED_COPIER, 0));
    listed = hub_moves(work, sizeof work, bytes, HUB_STEP_LENGTH - 1);
    expect("a short list", REFUSED(listed, HUB_REFUSED_LIST, 0));
    joined = hub_join(example, two, work, 0, work, 0, work, 0, usual, 63, table, 0, bytes, two + 1);
    expect("a buffer longer than what is joined", REFUSED(joined, HUB_REFUSED_SET, 0));
    joined = hub_join(example, 8, example + 8, 8, work, 0, work, 0, usual, 63, table, 0, bytes, two + 1);
    expect("a member whose parent is another's", REFUSED(joined, HUB_REFUSED_CLIMB, 1));
    joined = hub_join(work, 0, work, 0, work, 0, work, two, usual, sizeof usual, table, sizeof table, bytes, two);
    expect("a table that doesn't hold for the fourth", REFUSED(joined, HUB_REFUSED_HOLDS, 0));
    screened = hub_screen(work, sizeof work, usual, 63, script, sizeof script, bytes, 1);
    expect("a refused screen", REFUSED(screened, HUB_REFUSED_POLICY, 0));
    expect("nothing is written", memcmp(work, example, sizeof work) == 0 && bytes[0] == 7 && bytes[1] == 7);
}

static void example_b(void)
{
    uint8_t work[sizeof example], after[sizeof example], answers[2] = {7, 7};
    uint8_t script[2 * HUB_STEP_LENGTH];
    const uint32_t screen[] = {0, 0, HUB_EXPOSED, 2, 7, 0, 1, 0, 2};
    const uint32_t tally[] = {0, 0, 1, 6, 0, 2};
    uint8_t list[2 * HUB_STEP_LENGTH];
    HubStep move;
    HubMovesResult listed;
    HubStepResult stepped;
    HubRunResult ran;
    HubMakeResult made;
    HubExposedResult asked;
    HubScreenResult screened;
    memset(after, 0, sizeof after);
    hub_write_record(after + record_at(1), HUB_AMBIENT, 1, 0, 0, 0);
    hub_write_record(after + record_at(2), HUB_AMBIENT, 2, 1, 0, 0);
    hub_write_step(script, 3, 1);
    hub_write_step(script + HUB_STEP_LENGTH, 3, 1);
    made = hub_make(example, sizeof example, usual, sizeof usual, table, sizeof table);
    asked = hub_exposed(example, sizeof example, usual, sizeof usual, table, sizeof table);
    expect("B is exposed", DONE(made) && DONE(asked) && asked.exposed == 1);
    memset(list, 7, sizeof list);
    listed = hub_moves(example, sizeof example, list, sizeof list);
    expect("B: the list's fields", fields(&listed, sizeof listed, tally, sizeof tally / sizeof tally[0]));
    expect("B: one move", DONE(listed) && listed.done == 1 && listed.unfit == 2 && listed.no_capability == 6);
    move = hub_read_step(list);
    expect("B: move (3,1)", move.actor == 3 && move.partner == 1 && list[HUB_STEP_LENGTH] == 7);
    listed = hub_moves(example, two, list, 0);
    expect("A: no move", DONE(listed) && listed.done == 0 && listed.no_capability == 4);
    memcpy(work, example, sizeof work);
    stepped = hub_step(work, sizeof work, 3, 1);
    expect("B: step (3,1)", DONE(stepped) && memcmp(work, after, sizeof work) == 0);
    memcpy(work, example, sizeof work);
    ran = hub_run(work, sizeof work, script, sizeof script, answers, sizeof answers);
    expect("B: the run counts one out", DONE(ran) && ran.ins == 0 && ran.outs == 1 && ran.opens == 0);
    expect("B: the run's answers", answers[0] == HUB_DONE && answers[1] == HUB_REFUSED_ACTOR);
    expect("B: the run's itinerary", memcmp(work, after, sizeof work) == 0);
    memcpy(work, example, sizeof work);
    memset(answers, 7, sizeof answers);
    screened = hub_screen(work, sizeof work, usual, sizeof usual, script, sizeof script, answers, sizeof answers);
    expect("B: the screen's fields", fields(&screened, sizeof screened, screen, sizeof screen / sizeof screen[0]));
    expect("B: is exposed by 2", screened.verdict == HUB_EXPOSED && screened.label == 2 && screened.bits == 7);
    expect("B: its steps and records", screened.outs == 1 && screened.records == 2);
    expect("B: the screen's answers", answers[0] == HUB_DONE && answers[1] == HUB_REFUSED_ACTOR);
    expect("B: the screen's itinerary", memcmp(work, after, sizeof work) == 0);
}

/* In A's first record a copier, and beneath it B's other two; then gone records. */
static void a_wash(void)
{
    uint8_t it[6 * HUB_RECORD_LENGTH] = {0}, before[sizeof it];
    const uint32_t two_copied[] = {0, 0, 2};
    HubMakeResult made;
    HubCheckResult checked;
    HubCopyResult copied;
    HubStepResult stepped;
    HubRecord copy;
    memcpy(it, example, HUB_RECORD_LENGTH);
    hub_write_record(it + record_at(2), HUB_COPIER, 0, 0, 1, 0);
    hub_write_record(it + record_at(3), HUB_AMBIENT, 2, 1, 2, 999);
    hub_write_record(it + record_at(4), HUB_OUT, 64, 0, 3, 0);
    memcpy(before, it, sizeof it);
    made = hub_make(it, sizeof it, usual, sizeof usual, table, sizeof table);
    expect("a copier is in no table", DONE(made) && made.bits == 7);
    stepped = hub_step(it, sizeof it, 4, 1);
    expect("nothing beneath it acts", REFUSED(stepped, HUB_REFUSED_ACTIVE, 0));
    copied = hub_copy(it, record_at(6), 2);
    expect("one gone record too few", REFUSED(copied, HUB_REFUSED_ROOM, 0));
    expect("nothing is copied", memcmp(it, before, sizeof it) == 0);
    copied = hub_copy(it, sizeof it, 2);
    expect("two records are copied", fields(&copied, sizeof copied, two_copied, 3) && copied.copied == 2);
    expect("what was there stays", memcmp(it, before, record_at(5)) == 0);
    copy = hub_read_record(it + record_at(5));
    expect("the copier's child stands beside it", copy.kind == HUB_AMBIENT && copy.parent == 1);
    expect("with its client", copy.client == 999);
    copy = hub_read_record(it + record_at(6));
    expect("parents are copies too", copy.kind == HUB_OUT && copy.parent == 5);
    checked = hub_check(it, sizeof it, usual, sizeof usual, table, sizeof table);
    expect("the table holds still", DONE(checked));
    stepped = hub_step(it, sizeof it, 6, 1);
    expect("the copy acts", DONE(stepped) && hub_read_record(it + record_at(5)).parent == 0);
    it[record_at(2) + 1] = 64;
    copied = hub_copy(it, sizeof it, 2);
    expect("a copier with a label", REFUSED(copied, HUB_REFUSED_LABEL, 2));
}

/* A, nothing, B and A again: seven records. */
static void a_joined_with_b(void)
{
    uint8_t joined[7 * HUB_RECORD_LENGTH], none[1];
    HubJoinResult done;
    HubMakeResult made = hub_make(example, sizeof example, usual, sizeof usual, table, sizeof table);
    HubCheckResult checked;
    HubRecord moved;
    memset(joined, 7, sizeof joined);
    done = hub_join(example, two, none, 0, example, sizeof example, example, two, usual, sizeof usual, table,
                    sizeof table, joined, sizeof joined);
    expect("A, B and A are joined", DONE(made) && DONE(done));
    expect("A comes first", memcmp(joined, example, two) == 0);
    expect("parent 0 stays", memcmp(joined + record_at(3), example, HUB_RECORD_LENGTH) == 0);
    moved = hub_read_record(joined + record_at(5));
    expect("B's capability in B's record 2", moved.kind == HUB_OUT && moved.parent == 4);
    expect("A's record 2 in A's record 1", hub_read_record(joined + record_at(7)).parent == 6);
    checked = hub_check(joined, sizeof joined, usual, sizeof usual, table, sizeof table);
    expect("the check agrees", DONE(checked));
}

static void example_c(void)
{
    uint8_t it[5 * HUB_RECORD_LENGTH];
    HubVerdictResult judged;
    HubExposedResult asked;
    HubMakeResult made;
    memcpy(it, example, two);
    hub_write_record(it + record_at(3), HUB_OPEN, 64, 1, 1, 0);
    hub_write_record(it + record_at(4), HUB_AMBIENT, 3, 2, 3, 0);
    hub_write_record(it + record_at(5), HUB_OUT, 65, 0, 4, 0);
    made = hub_make(it, sizeof it, usual, sizeof usual, table, sizeof table);
    expect("C has twelve bits", DONE(made) && made.bits == 12);
    judged = hub_verdict(it, sizeof it, usual, sizeof usual, table, sizeof table);
    expect("C is hinted by 1", DONE(judged) && judged.verdict == HUB_HINTED && judged.label == 1);
    asked = hub_exposed(it, sizeof it, usual, sizeof usual, table, sizeof table);
    expect("C: hinted is not exposed", DONE(asked) && asked.exposed == 0);
}

static void example_e(void)
{
    uint8_t it[2 * HUB_RECORD_LENGTH], work[sizeof it];
    HubStepResult stepped;
    HubMakeResult made;
    hub_write_record(it + record_at(1), HUB_AMBIENT, 1, 0, 0, 0);
    hub_write_record(it + record_at(2), HUB_IN, 64, 0, 1, 0);
    made = hub_make(it, sizeof it, low, sizeof low, table, sizeof table);
    expect("E has four bits", DONE(made) && made.bits == 4);
    memcpy(work, it, sizeof it);
    stepped = hub_step(work, sizeof work, 2, 1);
    expect("E: no ambient enters itself", REFUSED(stepped, HUB_REFUSED_PARTNER, 0));
    expect("E: unchanged", memcmp(work, it, sizeof it) == 0);
}

static void example_g(void)
{
    uint8_t it[HUB_RECORD_LENGTH];
    HubValidateResult validated;
    hub_write_record(it, HUB_AMBIENT, 1, 0, 1, 0);
    validated = hub_validate(it, sizeof it);
    expect("G: a ring", REFUSED(validated, HUB_REFUSED_CLIMB, 1));
    hub_write_record(it, HUB_AMBIENT, 1, 0, 2, 0);
    validated = hub_validate(it, sizeof it);
    expect("G: a parent over the count", REFUSED(validated, HUB_REFUSED_PARENT, 1));
    hub_write_record(it, HUB_AMBIENT, 1, 64, 0, 0);
    validated = hub_validate(it, sizeof it);
    expect("a name over 63", REFUSED(validated, HUB_REFUSED_NAME, 1));
    hub_write_record(it, HUB_AMBIENT, 64, 0, 0, 0);
    validated = hub_validate(it, sizeof it);
    expect("a label that is no ambient's", REFUSED(validated, HUB_REFUSED_LABEL, 1));
    hub_write_record(it, HUB_GONE, 1, 0, 0, 0);
    validated = hub_validate(it, sizeof it);
    expect("a gone record with a label", REFUSED(validated, HUB_REFUSED_FORM, 1));
    validated = hub_validate(it, 0);
    expect("no bytes", DONE(validated) && validated.records == 0);
}

static void example_h(void)
{
    uint8_t it[2 * HUB_RECORD_LENGTH];
    const uint8_t gone[sizeof it] = {0};
    HubStepResult stepped;
    hub_write_record(it + record_at(1), HUB_AMBIENT, 1, 0, 0, 0);
    hub_write_record(it + record_at(2), HUB_OUT, 64, 0, 0, 0);
    stepped = hub_step(it, sizeof it, 2, 1);
    expect("H: out of the environment", REFUSED(stepped, HUB_REFUSED_ACTIVE, 0));
    it[record_at(2)] = HUB_OPEN;
    stepped = hub_step(it, sizeof it, 2, 1);
    expect("H: open", DONE(stepped));
    expect("H: both go", memcmp(it, gone, sizeof it) == 0);
}

int main(void)
{
    expect("the archive has the header's version", hub_version() == HUB_VERSION);
    write_example();
    helpers();
    causes();
    example_a();
    refusals();
    example_b();
    a_wash();
    a_joined_with_b();
    example_c();
    example_e();
    example_g();
    example_h();
    printf("%d passed, %d failed\n", passed, failed);
    return failed != 0;
}
