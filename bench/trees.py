"""The tree that expat builds of a document, for benchmarks that stand beside a plain program."""
from xml.parsers import expat


def tree_of(data):
    """Names with their namespaces, attributes, and children with joined texts."""
    root = []
    stack = [root]
    parser = expat.ParserCreate(namespace_separator=" ")
    parser.buffer_text = True

    def start(name, attributes):
        kids = []
        stack[-1].append((name, attributes, kids))
        stack.append(kids)

    parser.StartElementHandler = start
    parser.EndElementHandler = lambda name: stack.pop()
    parser.CharacterDataHandler = lambda piece: stack[-1].append(piece)
    parser.Parse(data, True)
    return root[0]
