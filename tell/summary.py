"""What a rehearsal came to, in a few lines."""


def lines(story, rows):
    if not rows:
        yield 'The list has nothing below its header row: the plan is missing'
        return
    refused = sum(story.refused.values())
    by_number = ', '.join(f'{count} with {answer}' for answer, count in sorted(story.refused.items(), key=by_answer))
    yield f'Rows: {rows}; {rows - refused} accepted, {refused} refused' + (f' ({by_number})' if refused else '')
    left_open = [f'client {client}, {now.words} of line {now.line}' for client, now in sorted(story.open.items())]
    dropped = story.begun - story.finished - len(left_open)
    yield (f'Writes and reads: {story.begun} begun, {story.finished} finished, {len(left_open)} still open'
           + (f', {dropped} dropped by a client that left' if dropped else '')
           + (f'. Open: {"; ".join(left_open)}' if left_open else ''))
    for client, (reading, line) in sorted(story.showed.items()):
        yield f'Client {client} last showed: {reading} (line {line})'
    if not story.showed:
        yield 'No client has shown anything: no read is finished'


def by_answer(item):
    return int(item[0])
