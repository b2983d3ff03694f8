"""Wrong rules, each to stand in the place of one rule of the model, so that the comparison itself can be tried: every one has to be noticed.

Those that change little of a rule call the right one, which is kept under its own name here before any is replaced.
"""

import re

import drive
import moments
import sheet

right_tick = drive.tick
right_clip = drive.clip
right_place_of_entry = drive.place_of_entry
right_kept_entry = drive.kept_entry
right_refusal = drive.refusal
right_clear = drive.clear
right_stored = moments.stored
right_row = moments.row
right_whole_number = sheet.whole_number
right_gain = sheet.gain
right_value_of = sheet.value_of
right_word_of_line = sheet.word_of_line
right_good_words = sheet.good_words
right_faulty_line = sheet.faulty_line
right_found_in = sheet.found_in


def towards_zero(number, divisor):
    return number // divisor if number >= 0 else -(-number // divisor)


def clarke_towards_zero(ia, ib):
    return ia, towards_zero((2 * ib + ia) * 2365, 4096)


def regulator_without_correction(error, integral, gains, limit):
    kp, _, ki = gains
    out = drive.held(integral + error * kp // 4096, -limit, limit)
    return out, integral + error * ki // 4096


def regulator_with_a_clamp(error, integral, gains, limit):
    out, unclamped = regulator_without_correction(error, integral, gains, limit)
    return out, drive.held(unclamped, -limit, limit)


def regulator_rounded_twice(error, integral, gains, limit):
    kp, kcor, ki = gains
    u = integral + error * kp // 4096
    out = drive.held(u, -limit, limit)
    return out, integral + error * ki // 4096 + (out - u) * kcor // 4096


def movement_of_half_a_turn_positive(seen, stored, count):
    if not seen:
        return 0
    moved = (count - stored) % 65536
    return moved - 65536 if moved > 32768 else moved


def movement_before_a_count_is_seen(seen, stored, count):
    return (count - stored + 32768) % 65536 - 32768


def park_rounded_apart(alpha, beta, sin, cos):
    return alpha * cos // 4096 + beta * sin // 4096, beta * cos // 4096 - alpha * sin // 4096


def inverse_park_rounded_apart(vd, vq, sin, cos):
    return vd * cos // 4096 - vq * sin // 4096, vq * cos // 4096 + vd * sin // 4096


def accepted_step_with_the_new_angle(record, ia, ib, count):
    is_tick_now = drive.is_tick(record['steps'])
    record = drive.encoder(record, count)
    if is_tick_now:
        record = drive.tick(record)
    alpha, beta = drive.clarke(ia, ib)
    d, q = drive.park(alpha, beta, drive.sine(record['angle']), drive.cosine(record['angle']))
    record = drive.flux_model(record, d, q)
    vd, vq, record = drive.current_regulators(record, d, q)
    # wrong from here on: the record has its new angle already
    voltage = drive.inverse_park(vd, vq, drive.sine(record['angle']), drive.cosine(record['angle']))
    compares, clipped = drive.modulation(record['T'], *voltage)
    return drive.StepAnswer(0, compares, clipped, voltage, record)


def flux_model_with_the_slip_of_the_old_flux(record, d, q):
    fine = drive.fine_after(record['fine'], d, record['Kr'])
    slip = drive.slip(drive.flux_of(record['fine']), q, record['Kt'])
    return {**record, 'fine': fine, 'angle': drive.angle_after(record['angle'], record['speed'] + slip, record['Kth'])}


def slip_from_42_on(flux, q, kt):
    return 0 if flux < 42 else drive.held(kt * q // flux, -16383, 16383)


def slip_towards_zero(flux, q, kt):
    return 0 if flux < 41 else drive.held(towards_zero(kt * q, flux), -16383, 16383)


def fine_towards_zero(fine, d, kr):
    return fine + towards_zero(kr * (4096 * d - fine), 4096)


def fine_in_the_old_bits(fine, d, kr):
    """The flux without its twelve bits more, which rests where Kr times the gap is less than 4096."""
    flux = drive.flux_of(fine)
    return 4096 * (flux + kr * (d - flux) // 4096)


def fine_by_a_product_of_32_bits(fine, d, kr):
    return fine + ((kr * (4096 * d - fine) + 2 ** 31) % 2 ** 32 - 2 ** 31) // 4096


def weakening_by_4095(speed, flux_up_to_base_speed):
    if drive.within(speed, 4095):
        return flux_up_to_base_speed
    return flux_up_to_base_speed * 4095 // abs(speed)


def tick_at_28(steps_before):
    return steps_before == 28


def tick_with_the_old_reference(record):
    """The speed regulator still uses the reference of before the tick."""
    reference = record['reference']
    after = right_tick({**record, 'target': reference})
    return {**after, 'target': record['target'], 'reference': drive.ramp(reference, record['target'], record['R'])}


def step_number_with_6_first(record, ia, ib, count):
    if drive.is_broken(record):
        return 14
    if drive.is_refused_sample(ia, ib, count):
        return 6
    return 7 if record['tripped'] else 0


def sample_without_its_sum(ia, ib, count):
    return not (drive.within(ia, 8191) and drive.within(ib, 8191) and 0 <= count <= 65535)


def clip_not_marked_at_one_over(t1, t2, period):
    return (*right_clip(t1, t2, period)[:2], t1 + t2 > period + 1)


def clip_marked_at_the_period(t1, t2, period):
    return (*right_clip(t1, t2, period)[:2], t1 + t2 >= period)


def clip_by_cutting(t1, t2, period):
    """Room for t1 first, and for t2 what is left, which turns the voltage."""
    used1 = min(t1, period)
    return used1, min(t2, period - used1), t1 + t2 > period


# The sums below are those of a clipped step, and so above 0. Some of these times do not fit the period: compares may be out of range then, which is noticed.

def clip_by_the_new_sum(t1, t2, period):
    if t1 + t2 <= period:
        return t1, t2, False
    used1 = t1 * period // (t1 + t2)
    return used1, t2 * period // (used1 + t2), True


def clip_of_the_second_alone(t1, t2, period):
    return t1, right_clip(t1, t2, period)[1], t1 + t2 > period


def clip_of_the_first_alone(t1, t2, period):
    return right_clip(t1, t2, period)[0], t2, t1 + t2 > period


def clip_with_the_rest_as_the_second(t1, t2, period):
    """The times fill the period, also where one count of it is left over."""
    used1, used2, clipped = right_clip(t1, t2, period)
    return used1, (period - used1 if clipped else used2), clipped


def clip_rounded_up(t1, t2, period):
    s = max(t1 + t2, period)
    return -(-t1 * period // s), -(-t2 * period // s), t1 + t2 > period


def clip_to_the_nearest(t1, t2, period):
    s = max(t1 + t2, period)
    return (2 * t1 * period + s) // (2 * s), (2 * t2 * period + s) // (2 * s), t1 + t2 > period


def sine_of_the_nearest_entry(angle):
    return drive.entry((angle + 128) // 256)


# Where a wrong place is none of 0 to 64, the nearest of these is read.

def place_off_by_one_past_64(k):
    return 127 - k if 65 <= k <= 127 else right_place_of_entry(k)


def place_off_by_one_from_128_on(k):
    return drive.held(k - 127, 0, 64) if 128 <= k <= 192 else right_place_of_entry(k)


def place_off_by_one_past_192(k):
    return 255 - k if k >= 193 else right_place_of_entry(k)


# Entries 64, 128 and 192 have the same place by both of the formulas that meet there, and may go by either. Those behind them may not: by the formula of the
# entries before, 65, 129 and 193 would stand at places 65, -1 and 65.

def place_with_65_not_folded(k):
    return 64 if k == 65 else right_place_of_entry(k)


def place_with_129_not_folded(k):
    return 0 if k == 129 else right_place_of_entry(k)


def place_with_193_not_folded(k):
    return 64 if k == 193 else right_place_of_entry(k)


def sign_never_turned(_):
    return False


# From 129 on would be right, since entry 128 is 0.

def sign_turned_from_127_on(k):
    return k >= 127


def sign_turned_from_130_on(k):
    return k >= 130


def index_held_to_255(index):
    """So the cosine in the last quarter of a turn is entry 255 throughout."""
    return min(index, 255)


def kept_entry_with_a_lower_peak(place):
    return 4095 if place == 64 else right_kept_entry(place)


def refusal_without_the_gain_law(settings):
    number = right_refusal(settings)
    return 0 if number == 3 else number


def clear_keeps_the_target(record):
    number, after = right_clear(record)
    return number, {**after, 'target': record['target']}


# What is wrong, the rule that it replaces, and by what.
WRONG_RULES = [
    ('Clarke rounded towards zero', 'clarke', clarke_towards_zero),
    ('(out - u) dropped from the integral', 'regulator', regulator_without_correction),
    ('the integral held by a clamp', 'regulator', regulator_with_a_clamp),
    ('the two products of the integral rounded apart', 'regulator', regulator_rounded_twice),
    ('a movement of 32768 taken as positive', 'movement', movement_of_half_a_turn_positive),
    ('a movement before a count was seen', 'movement', movement_before_a_count_is_seen),
    ('the two products of Park rounded apart', 'park', park_rounded_apart),
    ('the two products of inverse Park rounded apart', 'inverse_park', inverse_park_rounded_apart),
    ('inverse Park with the new angle', 'accepted_step', accepted_step_with_the_new_angle),
    ('slip of the old flux', 'flux_model', flux_model_with_the_slip_of_the_old_flux),
    ('slip from flux 42 on', 'slip', slip_from_42_on),
    ('slip rounded towards zero', 'slip', slip_towards_zero),
    ('the fine flux rounded towards zero', 'fine_after', fine_towards_zero),
    ('the flux in the old bits', 'fine_after', fine_in_the_old_bits),
    ('the product of the fine flux in 32 bits', 'fine_after', fine_by_a_product_of_32_bits),
    ('weakening from 4096 on, by 4095', 'weakened_flux', weakening_by_4095),
    ('a tick at 28 steps', 'is_tick', tick_at_28),
    ('a tick with the old reference', 'tick', tick_with_the_old_reference),
    ('7 after 6', 'step_number', step_number_with_6_first),
    ('ia + ib not looked at', 'is_refused_sample', sample_without_its_sum),
    ('clipping not marked at one count over', 'clip', clip_not_marked_at_one_over),
    ('clipping marked where the times fill the period', 'clip', clip_marked_at_the_period),
    ('clipping by cutting one time after the other', 'clip', clip_by_cutting),
    ('clipping with the new sum for the second time', 'clip', clip_by_the_new_sum),
    ('clipping of the second time alone', 'clip', clip_of_the_second_alone),
    ('clipping of the first time alone', 'clip', clip_of_the_first_alone),
    ('clipping with the rest as the second time', 'clip', clip_with_the_rest_as_the_second),
    ('clipping rounded up', 'clip', clip_rounded_up),
    ('clipping to the nearest', 'clip', clip_to_the_nearest),
    ('the sine of the nearest entry', 'sine', sine_of_the_nearest_entry),
    ('a place one less for the entries past 64', 'place_of_entry', place_off_by_one_past_64),
    ('a place one more for the entries from 128 on', 'place_of_entry', place_off_by_one_from_128_on),
    ('a place one less for the entries past 192', 'place_of_entry', place_off_by_one_past_192),
    ('entry 65 not folded at 64', 'place_of_entry', place_with_65_not_folded),
    ('entry 129 not folded at 128', 'place_of_entry', place_with_129_not_folded),
    ('entry 193 not folded at 192', 'place_of_entry', place_with_193_not_folded),
    ('the sign of no entry turned', 'is_sign_turned', sign_never_turned),
    ('the sign turned from entry 127 on', 'is_sign_turned', sign_turned_from_127_on),
    ('the sign turned from entry 130 on', 'is_sign_turned', sign_turned_from_130_on),
    ('an index past 255 not taken modulo 256', 'index_of_one_turn', index_held_to_255),
    ('a peak of 4095', 'kept_entry', kept_entry_with_a_lower_peak),
    ('the gain law not looked at', 'refusal', refusal_without_the_gain_law),
    ('a clear that keeps the target', 'clear', clear_keeps_the_target),
]


# The last moments

def newest_first(next_place, _, i):
    return (next_place - 1 - i) % 128


def step_that_stores_when_refused(record, recorded, ia, ib, count):
    answer = drive.step(record, ia, ib, count)
    return answer, moments.stored(recorded, moments.row_of(ia, ib, answer))


def step_with_the_speed_before(record, recorded, ia, ib, count):
    answer = drive.step(record, ia, ib, count)
    row = ia, ib, record['speed'], *answer.compares
    return answer, (moments.stored(recorded, row) if answer.number == 0 else recorded)


def counts_up_to_127(next_place, real):
    return (next_place + 1) % 128, min(real + 1, 127)


def counts_without_a_turn(next_place, real):
    return min(next_place + 1, 127), min(real + 1, 128)


def clear_that_keeps_the_rows(record, recorded):
    return (*drive.clear(record), recorded)


def clear_of_the_counts_alone(record, recorded):
    number, after = drive.clear(record)
    return number, after, ({**recorded, 'next': 0, 'real': 0} if number == 0 else recorded)


def clear_that_empties_when_refused(record, _):
    return (*drive.clear(record), moments.empty())


def start_that_empties_when_refused(record, _, settings):
    number, made = drive.make(settings)
    return number, (made if number == 0 else record), moments.empty()


def start_that_keeps_the_rows(record, recorded, settings):
    number, made = drive.make(settings)
    return number, (made if number == 0 else record), recorded


def counts_by_next_alone(recorded):
    return (recorded['next'], recorded['real']) if 0 <= recorded['next'] <= 127 else (0, 0)


def counts_by_real_alone(recorded):
    return (recorded['next'], recorded['real']) if 0 <= recorded['real'] <= 128 else (0, 0)


def counts_each_by_itself(recorded):
    next_place, real = recorded['next'], recorded['real']
    return (next_place if 0 <= next_place <= 127 else 0), (real if 0 <= real <= 128 else 0)


def has_wild_counts(recorded):
    return not (0 <= recorded['next'] <= 127 and 0 <= recorded['real'] <= 128)


def stored_among_the_old_rows(recorded, row):
    """On wild counts the words that the rings have become rows."""
    return right_stored({**recorded, 'next': 0, 'real': 128} if has_wild_counts(recorded) else recorded, row)


def stored_in_an_empty_record(recorded, row):
    """On wild counts the words at the other places become 0."""
    return right_stored(moments.empty() if has_wild_counts(recorded) else recorded, row)


def row_past_the_end(recorded, i):
    """With 19 come the words of the place at which the row would stand."""
    number, words = right_row(recorded, i)
    place = moments.place_of_row(*moments.counts(recorded), i)
    return number, (words if number == 0 else tuple(recorded[name][place] for name in moments.RINGS))


# The same for the rules in moments.py.
WRONG_MOMENTS = [
    ('rows newest first', 'place_of_row', newest_first),
    ('a refused step adds a row', 'step', step_that_stores_when_refused),
    ('the speed before the step', 'step', step_with_the_speed_before),
    ('the ring forgets at 127', 'counts_after', counts_up_to_127),
    ('the ring does not turn', 'counts_after', counts_without_a_turn),
    ('a clear that keeps the rows', 'clear', clear_that_keeps_the_rows),
    ('a clear that sets the counts alone to 0', 'clear', clear_of_the_counts_alone),
    ('a refused clear empties', 'clear', clear_that_empties_when_refused),
    ('a refused start empties', 'start', start_that_empties_when_refused),
    ('a start that keeps the rows', 'start', start_that_keeps_the_rows),
    ('of wild counts only next looked at', 'counts', counts_by_next_alone),
    ('of wild counts only real looked at', 'counts', counts_by_real_alone),
    ('of wild counts each 0 by itself', 'counts', counts_each_by_itself),
    ('a step on wild counts keeps the old rows', 'stored', stored_among_the_old_rows),
    ('a step on wild counts empties the other places', 'stored', stored_in_an_empty_record),
    ('with 19 the words that stand there', 'row', row_past_the_end),
]


# The sheet

def whole_number_with_zeros_in_front(value):
    return int(value) if re.fullmatch(rb'[0-9]{1,5}', value) else None


def whole_number_of_six_digits(value):
    return int(value) if re.fullmatch(rb'0|[1-9][0-9]{0,5}', value) else None


def whole_number_of_nothing(value):
    return right_whole_number(value or b'0')


def whole_number_with_a_plus(value):
    return right_whole_number(value[1:] if value.startswith(b'+') else value)


def digits_with_zeros_behind(digits):
    return re.fullmatch(rb'[0-9]{1,12}', digits) is not None


def rounded_down(number):
    return number * 4096 // 1


def gain_with_a_comma(value):
    return right_gain(value.replace(b',', b'.'))


def gain_with_a_bare_point(value):
    return right_gain(value[:-1] if value.endswith(b'.') else value)


def gain_with_nothing_before_the_point(value):
    return right_gain(b'0' + value if value.startswith(b'.') else value)


def gain_with_a_thirteenth_digit(value):
    """No 4096th has thirteen digits, so that the last of them is dropped."""
    return right_gain(value[:-1] if re.fullmatch(rb'[0-9]+[.][0-9]{13}', value) else value)


def gain_as_its_word(value):
    return right_whole_number(value)


def line_without_carriage_returns(name, line, is_ended):
    return right_word_of_line(name, line.replace(b'\r', b''), is_ended)


def line_without_blanks(name, line, is_ended):
    return right_word_of_line(name, line.replace(b' ', b''), is_ended)


def line_without_a_line_feed(name, line, _):
    return right_word_of_line(name, line, True)


def line_in_any_letters(name, line, is_ended):
    return right_word_of_line(name.lower(), line.lower(), is_ended) if name not in sheet.GAINS else right_word_of_line(name, line, is_ended)


def words_in_any_order(lines):
    """Each line stands where its name belongs, and what has no name is dropped."""
    by_name = {line.partition(b'=')[0].decode(errors='replace'): (line, is_ended) for line, is_ended in lines}
    return right_good_words([by_name[name] for name in sheet.NAMES if name in by_name])


def last_faulty_line(_, lines):
    faulty = [16] if len(lines) > 15 else []
    for line, name in enumerate(sheet.NAMES, 1):
        if line > len(lines) or sheet.word_of_line(name, *lines[line - 1]) is None:
            faulty.append(line)
    return max(faulty, default=0)


def faulty_line_without_the_end(words, _):
    return len(words) + 1 if len(words) < 15 else 0


def faulty_line_of_those_there(words, lines):
    """Where a line is missing, the one before it."""
    return min(right_faulty_line(words, lines), max(len(lines), 1))


def faulty_line_up_to_15(words, lines):
    return min(right_faulty_line(words, lines), 15)


def read_that_takes_all(text):
    line, settings = sheet.line_and_settings(text)
    return sheet.Reading(17 if line else 0, line, settings)


def room_with_a_byte_to_spare(text, room):
    return len(text) < len(room)


def write_number_with_18_first(settings, room):
    return drive.refusal(settings) if sheet.has_room(sheet.sheet_of(settings), room) else 18


def write_number_of_the_room_alone(settings, room):
    return 0 if sheet.has_room(sheet.sheet_of(settings), room) else 18


def write_that_clears_the_room(settings, room):
    number = sheet.write_number(settings, room)
    text = sheet.sheet_of(settings) if number == 0 else b''
    return sheet.Writing(number, len(text), text + bytes(len(room) - len(text)) if number == 0 else room)


def value_with_a_point(name, word):
    value = right_value_of(name, word)
    return value + '.0' if name in sheet.GAINS and '.' not in value else value


def value_of_six_digits(name, word):
    return right_value_of(name, word)[:8]


# The same for the rules in sheet.py that tests/sheets.c shows.
WRONG_SHEETS = [
    ('a comma taken for a point', 'gain', gain_with_a_comma),
    ('a zero in front taken', 'whole_number', whole_number_with_zeros_in_front),
    ('a zero behind taken', 'is_behind_a_point', digits_with_zeros_behind),
    ('what is no 4096th rounded down', 'in_4096ths', rounded_down),
    ('six digits taken', 'whole_number', whole_number_of_six_digits),
    ('no digit taken as 0', 'whole_number', whole_number_of_nothing),
    ('a plus sign taken', 'whole_number', whole_number_with_a_plus),
    ('thirteen digits behind the point taken', 'gain', gain_with_a_thirteenth_digit),
    ('a bare point taken', 'gain', gain_with_a_bare_point),
    ('nothing before the point taken', 'gain', gain_with_nothing_before_the_point),
    ('a gain in 4096ths on the sheet', 'gain', gain_as_its_word),
    ('a carriage return skipped', 'word_of_line', line_without_carriage_returns),
    ('a blank skipped', 'word_of_line', line_without_blanks),
    ('a missing line feed at the end taken', 'word_of_line', line_without_a_line_feed),
    ('small and capital letters alike', 'word_of_line', line_in_any_letters),
    ('lines in any order', 'good_words', words_in_any_order),
    ('the last faulty line named', 'faulty_line', last_faulty_line),
    ('bytes behind the last line taken', 'faulty_line', faulty_line_without_the_end),
    ('bytes behind the last line counted to it', 'faulty_line', faulty_line_up_to_15),
    ('the line before a missing one named', 'faulty_line', faulty_line_of_those_there),
    ('a read that refuses no settings', 'read', read_that_takes_all),
    ('18 at an exact fit', 'has_room', room_with_a_byte_to_spare),
    ('numbers 1 to 5 after 18', 'write_number', write_number_with_18_first),
    ('a write that refuses no settings', 'write_number', write_number_of_the_room_alone),
    ('a write that clears the rest of the room', 'write', write_that_clears_the_room),
    ('a gain written with a point always', 'value_of', value_with_a_point),
    ('a gain written with six digits behind the point', 'value_of', value_of_six_digits),
]


# The program read_sheet

def found_with_an_empty_line_as_nothing(text, line):
    found = right_found_in(text, line)
    return 'nothing' if found == '""' else found


def found_and_more_at_40(text, line):
    found = right_found_in(text, line)
    return re.sub('^("[^\n]{40}").*', r'\1 and more', found)


def found_without_the_missing_line_feed(text, line):
    return right_found_in(text, line).replace(' without a line feed', '')


def shown_up_to_127(found):
    return re.sub(rb'[^ -\x7f]', b'?', found).decode()


def shown_as_it_is(found):
    return found.decode('latin-1')


def shown_without_blanks(found):
    return re.sub(rb'[^!-~]', b'?', found).decode()


def out_of_range_last(settings):
    """What is said of the last word that is out of its range."""
    said = None
    for name, setting in zip(sheet.NAMES, drive.SETTINGS):
        word = settings[setting.name]
        if not setting.lowest <= word <= setting.highest:
            said = '%s is %s, and must be %s to %s' % (name, *(sheet.value_of(name, number) for number in (word, setting.lowest, setting.highest)))
    return said


def untied_current_first(settings):
    current_gains = (settings[name] for name in ('current_Kp', 'current_Kcor', 'current_Ki'))
    first, ki = ('s', settings['speed_Ki']) if drive.obeys_gain_law(*current_gains) else ('c', settings['current_Ki'])
    return '%sKi is %s, and must be %sKp times %sKcor' % (first, sheet.value_of('sKi', ki), first, first)


def value_as_its_word(_, word):
    return str(word)


# The same for those that the program read_sheet shows.
WRONG_PROGRAM = [
    ('an empty line as nothing', 'found_in', found_with_an_empty_line_as_nothing),
    ('more than 40 bytes at 40', 'found_in', found_and_more_at_40),
    ('a missing line feed not said', 'found_in', found_without_the_missing_line_feed),
    ('byte 127 shown as it is', 'shown', shown_up_to_127),
    ('every byte shown as it is', 'shown', shown_as_it_is),
    ('a blank shown as a question mark', 'shown', shown_without_blanks),
    ('the last word out of range named', 'out_of_range', out_of_range_last),
    ('of the gain sets the current one looked at first', 'untied', untied_current_first),
    ('gains said as words', 'value_of', value_as_its_word),
]
