"""How things look, as classes of the style sheet, and what stands under the name of a lane."""


def client_look(client):
    return 'gone' if client.left else 'asking' if client.part == 1 else client.offer.look()


def cabinet_look(cabinet):
    return cabinet.held.look() + ' stale' * cabinet.stale + ' down' * (not cabinet.up)


def told_look(message):
    """A stamp alone has no reading, and no colour."""
    return 'stamp' if message.kind == 'write' else message.told.look()


def body_look(message):
    """What a message carries."""
    if message.offer:
        return f'offer {message.offer.look()}'
    return f'told {told_look(message)}' if message.told else 'ask'


def client_standing(client, plan):
    if not client.kind:
        return 'left' if client.left else 'idle', ''
    part = f'{client.kind}: asks' if client.part == 1 else f'offers {client.offer}'
    return part, f'{len(client.heard)} of {plan.quorums[client.part]} heard'


def cabinet_standing(cabinet):
    states = ['down'] * (not cabinet.up) + ['stale'] * cabinet.stale + ['marked'] * cabinet.marked
    return str(cabinet.held), ', '.join(states)
