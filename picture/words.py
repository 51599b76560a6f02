"""Sentences for those who point at an arrow or a row, or who do not see the picture."""


def row_words(row):
    """A row of the list, and what the transcript says of it."""
    step = ascii(','.join(row.step).rstrip(','))[1:-1]
    said = f'refused, answer {row.answer}' if row.outcome == 'refused' else row.outcome
    return f'row {row.number}: {step:.80}: {said}' + (f' {row.entry}' if row.entry else '')


def arrow_words(arrow, plan):
    message = arrow.message
    who = reply_words(message) if message.reply else request_words(message)
    heard = f', {message.place} of {plan.quorums[message.part]} heard' if message.place else ''
    fate = 'under way' if arrow.fate == 'underway' else arrow.fate
    return f'{who}, slot {message.slot}, rows {arrow.began} to {arrow.ended or "the end"}: {fate}{heard}'


def request_words(message):
    client, cabinet = f'client {message.client}', f'cabinet {message.cabinet}'
    if message.offer:
        return f'{client} offers {message.offer} to {cabinet}'
    return f'{client} asks {cabinet} for its {"stamp" if message.kind == "write" else "entry"}'


def reply_words(message):
    client, cabinet = f'client {message.client}', f'cabinet {message.cabinet}'
    if message.offer:
        return f'{cabinet} acknowledges {message.offer} to {client}, {"taken" if message.taken else "not taken"}'
    return f'{cabinet} tells {client} {message.told_words()}'
