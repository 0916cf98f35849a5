"""What the stored tests share: which words are refused, and the two files of a test."""
import os

LONGEST = 255


def refusal(word):
    """What is written for a refused word: `?1` with over 255 bytes, else `?2` where it is not well-formed UTF-8. None for a good word."""
    if len(word) > LONGEST:
        return b'?1'
    try:
        word.decode('utf-8')
    except UnicodeDecodeError:
        return b'?2'
    return None


def write_test(folder, given, expected):
    """Writes what a program is given and what it must write; the number of bytes."""
    os.makedirs(folder, exist_ok=True)
    for name, content in (('stdin', given), ('stdout', expected)):
        with open(os.path.join(folder, name), 'wb') as file:
            file.write(content)
    return len(given) + len(expected)


def joined(lines):
    return b''.join(line + b'\n' for line in lines)
