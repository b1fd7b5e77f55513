"""What to say of words that SQL has and CQL has not."""

_HINTS = {
    "having": "the engine has no Having; the friendly dialect of `cql` filters answers by it",
    "every": "the engine has no Every; the friendly dialect of `cql` thins answers out by it",
    "avg": "the engine has no Avg; the friendly dialect of `cql` divides Sum by Count",
    "order": "answers have one order: by instant, then by value from the left",
    "limit": "a query goes on for good; limit what is shown instead",
    "like": "texts are compared by `=` and `<>` only",
    "between": "write two comparisons with And in place of Between",
    "in": "write comparisons by `=` with Or in place of In",
    "is": "there is no Is Null; a comparison with a null is never true",
    "null": "a comparison with a null is never true, so none is written",
    "join": "write the sources with `,` between them, and the keys as equalities in Where",
    "inner": "write the sources with `,` between them, and the keys as equalities in Where",
    "left": "there is no outer join",
    "right": "there is no outer join",
    "full": "there is no outer join",
    "union": "a query has one Select; register two queries",
    "case": "there is no Case",
    "with": "a query has one Select; register two queries",
}


def hint(word: str) -> str:
    """Returns a sentence on a word of SQL that CQL lacks, or nothing."""
    return _HINTS.get(word.lower(), "")
