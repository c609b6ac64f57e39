"""Cards for the sample club: deals by chance, and players who follow suit, win as cheaply as they can and cash what is high. No rule of scoring is here; the
records are judged by the library."""

RANKS = "23456789TJQKA"
HONOURS = {12: 4, 11: 3, 10: 2, 9: 1}


class Chance:
    """Numbers that are the same on every machine."""

    def __init__(self, seed):
        self.state = seed

    def below(self, count):
        self.state = (self.state * 6364136223846793005 + 1442695040888963407) % 2**64
        return (self.state >> 33) % count

    def percent(self, chance):
        return self.below(100) < chance

    def pick(self, some):
        return some[self.below(len(some))]


def deal(chance):
    """The holder of each card."""
    cards = list(range(52))
    for last in range(51, 0, -1):
        other = chance.below(last + 1)
        cards[last], cards[other] = cards[other], cards[last]
    holders = [0] * 52
    for place, card in enumerate(cards):
        holders[card] = place % 4
    return holders


def points(holders, seat):
    """High-card points."""
    return sum(HONOURS.get(card % 13, 0) for card in range(52) if holders[card] == seat)


def length(holders, seat, suit):
    return sum(1 for rank in range(13) if holders[13 * suit + rank] == seat)


def beats(card, best, trump):
    return card // 13 == best // 13 and card > best or card // 13 == trump and best // 13 != trump


def play(holders, declarer, strain, chance):
    """All 52 cards in order of play, and how many tricks declarer's side wins up to each trick's end."""
    hands = [[card for card in range(52) if holders[card] == seat] for seat in range(4)]
    leader, plays, won = (declarer + 1) % 4, [], [0]
    for _ in range(13):
        trick = []
        for turn in range(4):
            seat = (leader + turn) % 4
            card = choose(hands, seat, trick, leader, declarer, strain, chance)
            hands[seat].remove(card)
            trick.append(card)
        plays += trick
        leader = (leader + winning(trick, strain)) % 4
        won.append(won[-1] + (leader % 2 == declarer % 2))
    return plays, won


def winning(trick, strain):
    best = 0
    for place in range(1, len(trick)):
        if beats(trick[place], trick[best], strain):
            best = place
    return best


def choose(hands, seat, trick, leader, declarer, strain, chance):
    hand = hands[seat]
    if not trick:
        return lead(hands, seat, declarer, strain, chance)
    follow = [card for card in hand if card // 13 == trick[0] // 13]
    if chance.percent(5):
        return chance.pick(follow or hand)
    best = winning(trick, strain)
    partner_wins = (leader + best) % 2 == seat % 2 and (len(trick) == 3 or trick[best] % 13 >= 10)
    if follow:
        above = [card for card in follow if beats(card, trick[best], strain)]
        return min(follow) if partner_wins or not above or len(trick) == 1 and max(above) % 13 < 11 else (min(above) if len(trick) == 3 else max(above))
    ruffs = [card for card in hand if card // 13 == strain and beats(card, trick[best], strain)]
    if ruffs and not partner_wins:
        return min(ruffs)
    plain = [card for card in hand if card // 13 != strain] or hand
    return min(plain, key=lambda card: (card % 13, card))


def lead(hands, seat, declarer, strain, chance):
    hand = hands[seat]
    others = [card for other in range(4) if other != seat for card in hands[other]]
    against = [card for other in range(4) if other % 2 != seat % 2 for card in hands[other]]
    trumps = [card for card in hand if card // 13 == strain]
    if seat % 2 == declarer % 2 and trumps and any(card // 13 == strain for card in against):
        return max(trumps)
    high = [card for card in hand if card // 13 != strain and not any(other // 13 == card // 13 and other > card for other in others)]
    if high and (len(hand) < 13 or chance.percent(50)):
        return chance.pick(high)
    suits = sorted({card // 13 for card in hand if card // 13 != strain}, key=lambda suit: -sum(card // 13 == suit for card in hand)) or [strain]
    suit = suits[0] if chance.percent(75) else chance.pick(suits)
    return min(card for card in hand if card // 13 == suit)
