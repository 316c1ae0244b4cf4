#!/bin/sh
# Makes wrong versions of the hand-written library, one edit each, and asks that the comparison
# catch every one.
#
# wrong.sh FOLDER CLANG 'LINK WORDS' 'RUN WORDS': FOLDER has compare and bridge.o.
set -eu
folder=$1 clang=$2 link=$3 run=$4
room=$folder/wrong
missed=0 tried=0

# wrong NAME FILE OLD NEW: outside/FILE with NEW for OLD, which it has exactly once, gives a library
# that is caught.
wrong() {
    rm -rf "$room"
    mkdir -p "$room"
    cp -R outside/by_hand outside/surface "$room"
    OLD=$3 NEW=$4 awk '
        { text = text $0 "\n" }
        END {
            at = index(text, ENVIRON["OLD"])
            rest = substr(text, at + length(ENVIRON["OLD"]))
            if (!at || index(rest, ENVIRON["OLD"])) exit 1
            printf "%s%s%s", substr(text, 1, at - 1), ENVIRON["NEW"], rest
        }' "outside/$2" >"$room/$2" || {
        echo "wrong.sh: what '$1' replaces is not in $2 exactly once" >&2
        exit 2
    }
    outside/to_x86_64.sh "$room/by_hand/lib.rs" "$room/wrong.o" "$clang" 2>"$room/rustc.log" || {
        cat "$room/rustc.log" >&2
        exit 2
    }
    $link "$room/bridge" "$folder/bridge.o" "$room/wrong.o" 2>"$room/link.log" || {
        cat "$room/link.log" >&2
        exit 2
    }
    tried=$((tried + 1))
    # shellcheck disable=SC2086
    if ! timeout 300 "$folder/compare" $run "$room/bridge" >"$room/said" 2>&1 && grep -q '^FAULT' "$room/said"; then
        printf 'caught  %s: %s\n' "$1" "$(grep -m1 '^FAULT' "$room/said" | cut -c8-100)"
    else
        missed=$((missed + 1))
        echo "MISSED  $1"
    fi
}

wrong 'refuses everything' by_hand/search.rs 'Ok(plan)' 'Err(Refusal(5, 0))'
wrong 'judges the first job only' surface/trial.rs 'release >= self.active' 'release >= t'
wrong 'judges one job fewer' surface/trial.rs 'release >= self.active' 'release + t >= self.active'
wrong 'the ceiling in place of floor plus one' surface/trial.rs \
    '(self.released)(start)' \
    '(self.released)(start.max(1) - 1)'
wrong 'times with blocking at the full length' by_hand/response.rs 'length)) - 1)' 'length)))'
wrong 'plan with blocking at the full length' by_hand/search.rs 'blocking.max(longer - 1)' 'blocking.max(longer)'
wrong 'times with the middle region left out of blocking' by_hand/response.rs 'longer(tasks[*row], length)' 'length'
wrong 'plan with the middle region left out of blocking' by_hand/search.rs \
    'blocking.max(longer - 1)' \
    'blocking.max(length - 1)'
wrong 'times with the final region left out beside a middle one' surface/rows.rs \
    'length.max(region)' \
    'if region > 0 { region } else { length }'
wrong 'times with both regions added' surface/rows.rs 'length.max(region)' 'length + region'
wrong 'plan with both regions added' by_hand/search.rs 'length.max(region)' 'length + region'
wrong 'times with a row'\''s own middle region in its blocking' by_hand/response.rs \
    'first = blocking + runs(level)' \
    'first = blocking.max(u64::from(longer(tasks[*row], 1)) - 1) + runs(level)'
wrong 'a response one tick too large' surface/trial.rs 'Some(largest)' 'Some(largest + 1)'
wrong 'a tie to the later row' by_hand/search.rs '|b| b.longer - 1' '|b| b.longer'
wrong 'a rank by the final length' by_hand/search.rs \
    'b.longer - 1);
        if less == 0 {
            break;
        }
        if region > less {
            continue;
        }' \
    'b.length - 1);
        if less == 0 {
            break;
        }'
wrong 'no row tried after a length of 1' by_hand/search.rs 'if less == 0' 'if best.is_some_and(|b| b.length == 1)'
wrong 'a row left out whose middle region could win' by_hand/search.rs 'region > less' 'region >= less'
wrong 'a length as long as the middle region' by_hand/search.rs \
    'trial.shortest(less.min(cap(own).into()))' \
    'trial.shortest(less.min(cap(own).into())).and_then(|(length, _)| {
            let longest = length.max(region.min(cap(own).into()));
            Some((longest, trial.response(longest, own[1].into())?))
        })'
wrong 'lengths up to C tried' by_hand/search.rs 'cap(own).into()' 'own[0].into()'
wrong 'lengths up to C let through' surface/checks.rs 'cap(*task)' 'task[0]'
wrong 'a length longer than the shortest' surface/trial.rs 'found.0 - fails > 1' 'found.0 - fails > 2'
wrong 'each row in another row'\''s part' surface/operations.rs \
    'zip(&plan[..tasks.len()]) {
        part' \
    'zip(plan[..tasks.len()].iter().rev()) {
        part'
wrong 'ranks by position below rank n' by_hand/search.rs \
    'in unplaced.iter().enumerate()' \
    'in unplaced.iter().enumerate().skip(if unplaced.len() == tasks.len() { 0 } else { unplaced.len() - 1 })'
wrong 'a busy period of exactly the horizon refused' surface/trial.rs 't > HORIZON' 't >= HORIZON'
wrong 'a busy period one tick beyond the horizon let through' surface/trial.rs 't > HORIZON' 't > HORIZON + 1'
wrong 'refused 5 for 4' by_hand/search.rs 'Refusal(4, 0)' 'Refusal(5, 0)'
wrong 'plan checks the output before the numbers' surface/operations.rs \
    'let tasks = checks::table(table)?;
    let length = PLANNED_WIDTH * tasks.len();
    checks::room(out.len(), length)?;' \
    'let length = PLANNED_WIDTH * checks::shape::<{ super::rows::ROW_WIDTH }>(table)?.len();
    checks::room(out.len(), length)?;
    let tasks = checks::table(table)?;'
wrong 'times checks the output before the plan' surface/operations.rs \
    'let mut plan = checks::plan(tasks, plan)?;
    checks::room(out.len(), tasks.len())?;' \
    'checks::room(out.len(), tasks.len())?;
    let mut plan = checks::plan(tasks, plan)?;'
wrong 'a number of 1,000,000 refused' surface/checks.rs 'v > MOST' 'v >= MOST'
wrong 'the place of a number one too far' surface/checks.rs 'row + column' 'row + column + 1'
wrong 'a start above 1,000,000 let through' surface/checks.rs 'start > MOST || ' ''
wrong 'a start without a length let through' surface/checks.rs ' || (start > 0 && region == 0)' ''
wrong 'a start without a length at the place of the length' surface/checks.rs \
    'start_at_fault, region_at_fault]' \
    'start > MOST, region_at_fault || start_at_fault]'
wrong 'a region up to C let through' surface/checks.rs '>= u64::from(c)' '> u64::from(c)'
wrong 'a region'\''s end that wraps at 2^32' surface/checks.rs \
    'u64::from(start) + u64::from(region) >= u64::from(c)' \
    'start.wrapping_add(region) >= c'
wrong 'faults of regions after all others' surface/checks.rs \
    'for (row, task) in' \
    'for (row, task) in tasks.iter().enumerate() {
        let [c, d, t, ..]: Task = *task;
        if let Some(column) = column_at_fault([c, d, t, 0, 0]) {
            return Err(Refusal(3, ROW_WIDTH * row + column));
        }
    }
    for (row, task) in'
wrong 'place 31 for a plan of the wrong size' surface/checks.rs 'Refusal(6, MOST_ROWS)' 'Refusal(6, MOST_ROWS - 1)'
wrong 'a rank twice let through' surface/checks.rs ' && seen >> rank & 1 == 0' ''
wrong '33 rows let through to a trap' surface/checks.rs 'rows.len() > MOST_ROWS' 'rows.len() > MOST_ROWS + 1'
wrong '4,097 jobs let through' surface/rows.rs 'MOST_JOBS: usize = 4_096' 'MOST_JOBS: usize = 4_097'
wrong 'jobs of a row T - 1 apart let through' surface/checks.rs \
    'release + tasks[row][2]' \
    'release + tasks[row][2] - 1'
wrong 'a falling release let through' surface/checks.rs 'release < last || ' ''
wrong 'the output touched on a refusal' surface/operations.rs \
    'let plan = search::plan' \
    'out[0] = 7; let plan = search::plan'
wrong 'written behind the front' surface/operations.rs \
    'out.iter_mut().zip(&plan[..tasks.len()])' \
    'out.iter_mut().zip(&plan)'
wrong 'the table written' surface/operations.rs \
    'verdict(lent(table' \
    '*table.cast_mut() = 1; verdict(lent(table'
wrong 'a read behind a slice' surface/operations.rs \
    'fit(lent(planned, planned_len), buf_len)' \
    'fit(lent(planned, planned_len), buf_len.min(planned.add(planned_len).read_volatile() as usize))'
wrong 'verdict with less in place of at most' surface/operations.rs '<= *d' '< *d'
wrong 'a job in its final region preempted' by_hand/play.rs ' || rank.executed + until > rank.preemptible' ''
wrong 'a final region one tick too long' by_hand/play.rs '> rank.preemptible' '>= rank.preemptible'
wrong 'a job in its middle region preempted' by_hand/play.rs 'region.holds(rank.executed + next)' 'false'
wrong 'a middle region that locks from its start on' by_hand/play.rs '> self.start' '>= self.start'
wrong 'a middle region that locks at its end' by_hand/play.rs 'end: start + region' 'end: start + region + 1'
wrong 'a job held in its middle region run to its own end' by_hand/play.rs \
    'region.end - rank.executed' \
    'remaining'
wrong 'a lower rank before a higher' by_hand/play.rs '.find(' '.rfind('
wrong 'a finish one tick early' by_hand/play.rs 'out[job] = now' 'out[job] = now - 1'
wrong 'a job that runs less than C given C' by_hand/play.rs \
    'jobs[job][2] - rank' \
    'tasks[rank.row as usize][0] - rank'
wrong 'finishes cut to 31 bits' by_hand/play.rs 'out[job] = now' 'out[job] = now & 0x7fff_ffff'
wrong 'the run rounded down' surface/sheet.rs 'c = up(' 'c = down('
wrong 'a deadline rounded up' surface/sheet.rs 'd = down(' 'd = up('
wrong 'a spacing rounded up' surface/sheet.rs 't = down(' 't = up('
wrong 'a deadline of no tick raised to 1' surface/sheet.rs \
    'd = down(self.number(MOST_TIME)?)' \
    'd = down(self.number(MOST_TIME)?).max(1)'
wrong 'a region'\''s start rounded up' surface/sheet.rs '(down(from), ' '(up(from), '
wrong 'a region'\''s end rounded down' surface/sheet.rs 'up(from + length)' 'down(from + length)'
wrong 'a region'\''s length rounded by itself' surface/sheet.rs 'up(from + length)' 'down(from) + up(length)'
wrong 'a sheet'\''s 0 let through' surface/sheet.rs \
    'checks::table(&table[..length])?' \
    'checks::table(&table[..length]).map_or_else(|r| if table[r.1] == 0 { Ok(()) } else { Err(r) }, |_| Ok(()))?'
wrong 'a sheet'\''s place in its line' surface/sheet.rs \
    'checks::table(&table[..length])?' \
    'checks::table(&table[..length]).map_err(|r| Refusal(r.0, r.1 % ROW_WIDTH))?'
wrong 'leading zeros let through' surface/sheet.rs 'longer == 0 || ' ''
wrong 'a 0 behind a start of 0 let through' surface/sheet.rs \
    'if self.here() == Some(b'\''0'\'')' \
    'while self.here() == Some(b'\''0'\'') && self.text.get(self.at + 1) == Some(&b'\''0'\'') { self.at += 1; }
        if self.here() == Some(b'\''0'\'')'
wrong 'a start of 0 refused on a sheet' surface/sheet.rs 'from = self.number_or_0' 'from = self.number'
wrong 'a length of 0 let through on a sheet' surface/sheet.rs 'length = self.number' 'length = self.number_or_0'
wrong 'a start without a length let through on a sheet' surface/sheet.rs \
    'self.word(b" ")?;
            let length = self.number(MOST_TIME)?;' \
    'let length = if self.word(b" ").is_ok() { self.number(MOST_TIME)? } else { 1 };'
wrong 'a place of the sheet one too far' surface/sheet.rs \
    'if value == 0 {
            return Err(Refusal(9, self.at' \
    'if value == 0 {
            return Err(Refusal(9, self.at + 1'
wrong 'the last line feed not asked for' surface/sheet.rs \
    'self.word(b"\n")?;
        Ok([' \
    'if self.at < self.text.len() { self.word(b"\n")?; }
        Ok(['
wrong 'a sheet of 32 lines refused' surface/sheet.rs 'length == MOST_NUMBERS' 'length == MOST_NUMBERS - ROW_WIDTH'
wrong 'a row'\''s printed numbers exchanged' surface/page.rs \
    '[rank, length, response]' \
    '[rank, response, length]'
wrong 'fit one byte short' surface/operations.rs \
    'checks::room(room, length)' \
    'checks::room(room.saturating_add(1), length)'
wrong 'print that writes on a refusal' surface/operations.rs 'let length = fit' 'buffer.fill(0); let length = fit'
wrong 'a tick of 1,001 let through' surface/sheet.rs 'MOST_TICK: u64 = 1_000' 'MOST_TICK: u64 = 1_001'
wrong 'fit cuts its length to 32 bits' surface/operations.rs \
    'fit(lent(planned, planned_len), buf_len)' \
    'fit(lent(planned, planned_len), buf_len as u32 as usize)'
wrong 'sums that wrap at 2^32' surface/trial.rs \
    'let next = first + released(t - 1);' \
    'let next = first + released(t - 1 & 0xffff_ffff) & 0xffff_ffff;'
wrong 'an inverse one too small' by_hand/level.rs '(1 << SHIFT) / u64::from(t) + 1' '(1 << SHIFT) / u64::from(t)'
wrong 'inverses of 30 bits' by_hand/level.rs 'SHIFT: u32 = 40' 'SHIFT: u32 = 30'
wrong 'ranks given to the wrong rows' by_hand/search.rs 'plan[row] = Planned' 'plan[at] = Planned'
wrong 'a row that is released again left out' by_hand/again.rs 'u64::from(*t) < busy' 'u64::from(*t) * 2 < busy'
wrong 'row 31 not tried at rank 32' by_hand/search.rs \
    'in unplaced.iter().enumerate()' \
    'in unplaced.iter().enumerate().take(MOST_ROWS - 1)'
wrong 'jobs past 100,000 not judged' surface/trial.rs \
    'release >= self.active' \
    'release >= self.active.min(100_000 * t)'
wrong 'more stack than the header says' by_hand/search.rs \
    'let mut blocking = 0;' \
    'let mut blocking = 0; core::hint::black_box([0u64; 512]);'

echo "wrong.sh: $tried wrong versions, $missed missed"
[ "$missed" -eq 0 ]
