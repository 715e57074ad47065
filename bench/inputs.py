#!/usr/bin/env python3
"""Writes the inputs of merge.sh into the folder that is named: inputs.py FOLDER"""
import sys

MOST_BYTES = 2_097_152
PORTS = 64
ROWS = 256


def text(value):
    return '"' + value + '"'


def contract(name, ports, terms):
    return ('{"name":' + text(name) + ',"inputs":[],"outputs":[' + ','.join(map(text, ports))
            + '],"assumptions":[],"guarantees":[' + ','.join(map(text, terms)) + ']}')


def diagram(left, right):
    return '{"version":1,"contracts":[' + left + ',' + right + ']}'


def rows(ports, first, blanks=''):
    """The texts of 256 different rows, 4 for each port."""
    return [ports[number % PORTS] + blanks + '<=' + blanks + str(first + number) for number in range(ROWS)]


def ordinary():
    """64 ports and 256 rows a contract, in different orders. No row is in both."""
    ports = ['unit_%d' % number for number in range(PORTS)]
    turned = ports[::-1]
    return diagram(contract('A', ports, rows(ports, 1000)), contract('B', turned, rows(turned, 2000)))


def padded(length):
    """The text of a diagram with names of 64 bytes and bounds of 18 digits, and blanks, most in its terms, up to this length."""
    ports = ['unit_%059d' % number for number in range(PORTS)]
    turned = ports[::-1]
    left, right = 10 ** 17, 2 * 10 ** 17

    def with_blanks(blanks):
        return diagram(contract('A', ports, rows(ports, left, blanks)), contract('B', turned, rows(turned, right, blanks)))

    each = (length - len(with_blanks(''))) // (2 * 2 * ROWS)
    text = with_blanks(' ' * each)
    return text + ' ' * (length - len(text))


def repeated(length):
    """The most terms: shortest names, and the same rows again and again, up to this length."""
    ports = [chr(number) for number in [*range(ord('a'), ord('z') + 1), *range(ord('A'), ord('Z') + 1)]]
    ports += ['_'] + ['x%d' % number for number in range(PORTS - len(ports) - 1)]
    right = contract('B', ports, ['a<=1'])
    room = length - len(diagram(contract('A', ports, ['a<=1']), right))
    count = room // len(',"a<=1"')
    text = diagram(contract('A', ports, ['a<=1'] * (count + 1)), right)
    return text + ' ' * (length - len(text))


def nested(opening, length):
    return (opening * (length // len(opening) + 1))[:length]


INPUTS = {
    'ordinary': ordinary(),
    'largest': padded(MOST_BYTES),
    'repeated': repeated(MOST_BYTES),
    'brackets': nested('[', MOST_BYTES),
    'objects': nested('{"a":', MOST_BYTES),
}


def main(folder):
    for name, value in INPUTS.items():
        with open(folder + '/' + name + '.json', 'w', encoding='ascii') as file:
            file.write(value)
    with open(folder + '/script.txt', 'w', encoding='ascii') as file:
        file.write('merge M = A B\n')


main(sys.argv[1])
