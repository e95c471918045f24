"""What share of the operations of SQLAlchemy's and Django's object mappers a recording says.

    PGSERIAL_DSN=.. python3 clients/python/orm_forms.py [--all]

Each operation is done alone, in a transaction, on SQLite and where $PGSERIAL_DSN names a database on PostgreSQL. It is said where
the transcript has statements of it and the recording goes on; in part, where a read of it is left out, too.
"""

import contextlib
import datetime
import io
import os
import sys
import tempfile
import types
import warnings
from decimal import Decimal
from typing import Any, Callable, Dict, Iterator, List, NamedTuple, Sequence, Tuple

from pgserial.recording import Recorder
from test_recording import DSN, module

SAID, IN_PART, LEFT_OUT, ENDS = "said", "in part", "left out", "ends the verdict"
TABLES = ("shelf_author", "shelf_book", "shelf_tag", "shelf_book_tags")
DAY = datetime.date(2020, 1, 2)


class Done(NamedTuple):
    """An operation that was done: of which mapper and database, whether it writes, and how it was said."""

    mapper: str
    place: str
    name: str
    writes: bool
    said: str
    why: str


def _how(recorder: Recorder, path: str) -> Tuple[str, str]:
    """How what was recorded is said, and why not."""
    if recorder.ended is not None:
        return ENDS, recorder.ended
    with open(path, encoding="utf-8") as file:
        text = file.read().split("-- The application begins")[-1]
    count = sum(line.split(" ")[2] in ("SELECT", "INSERT", "UPDATE", "DELETE") for line in text.split("\n") if line.startswith("> "))
    left = "; ".join(recorder.left_out)
    return (SAID if count and not left else IN_PART if count else LEFT_OUT), left


@contextlib.contextmanager
def _quiet() -> Iterator[None]:
    with warnings.catch_warnings(), contextlib.redirect_stderr(io.StringIO()):
        warnings.simplefilter("ignore")
        yield


# ---- Django


def _django_models() -> Dict[str, Any]:
    """The models, made once the settings are there."""
    from django.db import models

    class Author(models.Model):  # type: ignore[misc]
        name = models.CharField(max_length=40)
        age = models.IntegerField(null=True)
        active = models.BooleanField(default=True)
        joined = models.DateField(null=True)

        class Meta:
            app_label = "shelf"

    class Tag(models.Model):  # type: ignore[misc]
        name = models.CharField(max_length=40, unique=True)

        class Meta:
            app_label = "shelf"

    class Book(models.Model):  # type: ignore[misc]
        title = models.CharField(max_length=40)
        price = models.DecimalField(max_digits=8, decimal_places=2, default=0)
        author = models.ForeignKey(Author, models.CASCADE)
        tags = models.ManyToManyField(Tag)

        class Meta:
            app_label = "shelf"

    return {"Author": Author, "Tag": Tag, "Book": Book}


def _django_writes(m: Dict[str, Any], using: str) -> Dict[str, Callable[[], Any]]:
    from django.db.models import Case, F, Q, Subquery, Value, When
    from django.db.models.functions import Coalesce, Upper

    authors, books, tags = (m[name].objects.using(using) for name in ("Author", "Book", "Tag"))

    def save() -> None:
        author = authors.get(pk=1)
        author.age = 31
        author.save()

    def refreshed() -> None:
        author = authors.select_for_update().get(pk=1) if using == "server" else authors.get(pk=1)
        author.age = F("age") + 1
        author.save(update_fields=["age"])

    def bulk_update() -> None:
        some = list(authors.order_by("pk")[:2])
        for author in some:
            author.age = 50
        authors.bulk_update(some, ["age"])

    return {
        "create()": lambda: authors.create(name="cy", age=3),
        "save() of a new object": lambda: m["Author"](name="cy").save(using=using),
        "save() of an object with a key": lambda: m["Author"](pk=9, name="cy").save(using=using, force_insert=True),
        "get(), save()": save,
        "save(update_fields=..) of F() + 1": refreshed,
        "update(age=5)": lambda: authors.filter(pk=1).update(age=5),
        "update() of all": lambda: authors.update(active=False),
        "update(age=F() + 1)": lambda: authors.filter(pk=1).update(age=F("age") + 1),
        "update(age=F() * 2)": lambda: authors.filter(name="ada").update(age=F("age") * 2),
        "update() with Q(..) | Q(..)": lambda: authors.filter(Q(pk=1) | Q(age__gt=35)).update(age=1),
        "update() with exclude()": lambda: authors.exclude(name="ada").update(age=1),
        "update() with __in": lambda: authors.filter(name__in=["ada", "bob"]).update(age=1),
        "update() through a foreign key": lambda: books.filter(author__name="ada").update(price=Decimal("2.50")),
        "update(Case(When))": lambda: authors.update(age=Case(When(pk=1, then=Value(7)), default=F("age"))),
        "update(Upper)": lambda: authors.filter(pk=1).update(name=Upper("name")),
        "update(Coalesce)": lambda: authors.update(age=Coalesce("age", 0)),
        "update(Subquery)": lambda: books.filter(pk=1).update(title=Subquery(authors.filter(pk=1).values("name"))),
        "bulk_create()": lambda: authors.bulk_create([m["Author"](name="cy"), m["Author"](name="dan")]),
        "bulk_create(ignore_conflicts=True)": lambda: tags.bulk_create([m["Tag"](pk=1, name="new"), m["Tag"](pk=9, name="old")], ignore_conflicts=True),
        "bulk_update()": bulk_update,
        "get_or_create(), there": lambda: tags.get_or_create(name="new"),
        "get_or_create(), not there": lambda: tags.get_or_create(name="odd"),
        "update_or_create(), there": lambda: authors.update_or_create(name="ada", defaults={"age": 8}),
        "update_or_create(), not there": lambda: authors.update_or_create(name="cy", defaults={"age": 8}),
        "delete() of a query": lambda: books.filter(pk=1).delete(),
        "delete() of an object with related ones": lambda: authors.get(pk=1).delete(),
        "delete() of all": lambda: tags.filter(pk=2).delete(),
        "many-to-many add()": lambda: books.get(pk=2).tags.add(1, 2),
        "many-to-many remove()": lambda: books.get(pk=1).tags.remove(1),
        "many-to-many set()": lambda: books.get(pk=1).tags.set([2]),
        "many-to-many clear()": lambda: books.get(pk=1).tags.clear(),
        "create() through a relation": lambda: authors.get(pk=1).book_set.create(title="third"),
    }


def _django_reads(m: Dict[str, Any], using: str) -> Dict[str, Callable[[], Any]]:
    from django.db.models import Count, Exists, F, Max, OuterRef, Prefetch, Q

    authors, books, tags = (m[name].objects.using(using) for name in ("Author", "Book", "Tag"))
    return {
        "get(pk=1)": lambda: authors.get(pk=1),
        "get(name=..)": lambda: authors.get(name="ada"),
        "all()": lambda: list(authors.all()),
        "filter()": lambda: list(authors.filter(age__gte=30, active=True)),
        "filter(Q | Q)": lambda: list(authors.filter(Q(age=30) | Q(name="bob"))),
        "exclude()": lambda: list(authors.exclude(age=30)),
        "__in": lambda: list(authors.filter(pk__in=[1, 2, 7])),
        "__contains": lambda: list(authors.filter(name__contains="a")),
        "__startswith": lambda: list(authors.filter(name__startswith="a")),
        "__isnull": lambda: list(authors.filter(age__isnull=True)),
        "__range of dates": lambda: list(authors.filter(joined__range=(DAY, DAY))),
        "first()": lambda: authors.first(),
        "order_by().first()": lambda: authors.order_by("-age").first(),
        "last()": lambda: authors.last(),
        "exists()": lambda: authors.filter(name="ada").exists(),
        "exists(), none": lambda: authors.filter(name="nobody").exists(),
        "count()": lambda: authors.filter(active=True).count(),
        "count() with Q | Q": lambda: authors.filter(Q(age=30) | Q(name="bob")).count(),
        "aggregate(Max)": lambda: authors.aggregate(Max("age")),
        "annotate(Count)": lambda: list(authors.annotate(n=Count("book"))),
        "annotate(F)": lambda: list(authors.annotate(next=F("age") + 1)),
        "values()": lambda: list(authors.values("name", "age")),
        "values_list(flat=True)": lambda: list(authors.values_list("name", flat=True)),
        "only()": lambda: list(authors.only("name")),
        "distinct()": lambda: list(authors.values("age").distinct()),
        "slice": lambda: list(authors.order_by("pk")[1:2]),
        "select_related()": lambda: list(books.select_related("author")),
        "prefetch_related()": lambda: list(books.prefetch_related("tags")),
        "Prefetch()": lambda: list(authors.prefetch_related(Prefetch("book_set"))),
        "a foreign key followed": lambda: books.get(pk=1).author.name,
        "a relation backwards": lambda: list(authors.get(pk=1).book_set.all()),
        "a filter through a relation": lambda: list(books.filter(author__name="ada")),
        "many-to-many": lambda: list(books.get(pk=1).tags.all()),
        "Exists(OuterRef)": lambda: list(authors.filter(Exists(books.filter(author=OuterRef("pk"))))),
        "a subquery with __in": lambda: list(authors.filter(pk__in=books.values("author"))),
        "in_bulk()": lambda: authors.in_bulk([1, 2]),
        "iterator()": lambda: list(authors.iterator()),
        "earliest()": lambda: authors.earliest("pk"),
        "union()": lambda: list(authors.filter(pk=1).union(authors.filter(pk=2))),
        "raw()": lambda: list(authors.raw("SELECT * FROM shelf_author WHERE age > 20")),
    }


def _django_databases(folder: str) -> Dict[str, Any]:
    found: Dict[str, Any] = {"default": {"ENGINE": "pgserial.django.sqlite3", "NAME": os.path.join(folder, "shelf.db")}}
    if DSN and module("psycopg2"):
        words = dict(word.split("=", 1) for word in DSN.split())
        found["server"] = {
            "ENGINE": "pgserial.django.postgresql", "NAME": words["dbname"], "HOST": words.get("host", ""), "USER": words.get("user", ""),
            "PORT": words.get("port", ""), "PASSWORD": words.get("password", ""),
        }  # fmt: skip
    return found


def _django_app(folder: str) -> None:
    """An application that has the models."""
    from django.apps import AppConfig

    shelf: Any = types.ModuleType("shelf")
    shelf.__path__ = []
    shelf.Shelf = type("Shelf", (AppConfig,), {"name": "shelf", "path": folder, "__module__": "shelf"})
    sys.modules["shelf"] = shelf


def django_done(folder: str) -> List[Done]:
    """Django's operations."""
    import django
    from django.conf import settings

    _django_app(folder)
    settings.configure(
        DATABASES=_django_databases(folder), INSTALLED_APPS=["shelf.Shelf"], USE_TZ=True, DEFAULT_AUTO_FIELD="django.db.models.BigAutoField"
    )
    django.setup()
    models = _django_models()
    done: List[Done] = []
    for using in settings.DATABASES:
        operations = [(name, call, True) for name, call in _django_writes(models, using).items()]
        operations += [(name, call, False) for name, call in _django_reads(models, using).items()]
        for name, call, writes in operations:
            _django_tables(models, using)
            done.append(Done("Django", "PostgreSQL" if using == "server" else "SQLite", name, writes, *_django_tried(using, call, folder)))
        _django_tables(models, using, False)
    return done


def _django_tables(models: Dict[str, Any], using: str, are_made: bool = True) -> None:
    """Makes the tables anew."""
    from django.db import connections

    connection = connections[using]
    names = connection.introspection.table_names()
    with connection.schema_editor() as editor:
        for name in ("Book", "Tag", "Author"):
            if models[name]._meta.db_table in names:
                editor.delete_model(models[name])
        for name in ("Author", "Tag", "Book") if are_made else ():
            editor.create_model(models[name])
    if are_made:
        author, tag, book = (models[name].objects.using(using) for name in ("Author", "Tag", "Book"))
        author.bulk_create([models["Author"](name="ada", age=30, joined=DAY), models["Author"](name="bob", age=40)])
        tag.bulk_create([models["Tag"](name="new"), models["Tag"](name="old")])
        book.bulk_create([models["Book"](title="first", author_id=1), models["Book"](title="second", author_id=2)])
        book.get(pk=1).tags.set([1])


def _django_tried(using: str, call: Callable[[], Any], folder: str) -> Tuple[str, str]:
    from django.db import transaction
    from pgserial.django import follower_of

    path = os.path.join(folder, "recording")
    with _quiet():
        recorder = Recorder(path, TABLES)
        with follower_of(using).recording(recorder), transaction.atomic(using=using):
            call()
    return _how(recorder, path)


# ---- SQLAlchemy


def _alchemy_models() -> Tuple[Any, Any, Any, Any]:
    import sqlalchemy
    from sqlalchemy import Boolean, Column, Date, ForeignKey, Integer, Numeric, String, Table
    from sqlalchemy.orm import declarative_base, relationship

    base: Any = declarative_base()
    links = Table(
        "shelf_book_tags", base.metadata,
        Column("book_id", ForeignKey("shelf_book.id"), primary_key=True), Column("tag_id", ForeignKey("shelf_tag.id"), primary_key=True),
    )  # fmt: skip
    author = type("Author", (base,), {
        "__tablename__": "shelf_author", "id": Column(Integer, primary_key=True), "name": Column(String(40)), "age": Column(Integer),
        "active": Column(Boolean, default=True), "joined": Column(Date), "books": relationship("Book", back_populates="author", cascade="all, delete"),
    })  # fmt: skip
    tag = type("Tag", (base,), {"__tablename__": "shelf_tag", "id": Column(Integer, primary_key=True), "name": Column(String(40), unique=True)})
    book = type("Book", (base,), {
        "__tablename__": "shelf_book", "id": Column(Integer, primary_key=True), "title": Column(String(40)), "price": Column(Numeric(8, 2), default=0),
        "author_id": Column(ForeignKey("shelf_author.id")), "author": relationship("Author", back_populates="books"),
        "tags": relationship("Tag", secondary=links),
    })  # fmt: skip
    assert sqlalchemy
    return base, author, tag, book


def _alchemy_writes(a: Any, t: Any, b: Any) -> Dict[str, Callable[[Any], Any]]:
    from sqlalchemy import case, delete, func, insert, or_, select, update

    def changed(session: Any) -> None:
        author = session.get(a, 1)
        author.age = 31

    def several(session: Any) -> None:
        for author in session.query(a).order_by(a.id):
            author.age = 7

    def tagged(session: Any) -> None:
        book, tag = session.get(b, 2), session.get(t, 1)
        book.tags.append(tag)

    def untagged(session: Any) -> None:
        book = session.get(b, 1)
        book.tags.clear()

    def gone(session: Any) -> None:
        session.delete(session.get(a, 1))

    def gone_book(session: Any) -> None:
        session.delete(session.get(b, 1))

    def increased(session: Any) -> None:
        author = session.get(a, 1)
        author.age = a.age + 1

    return {
        "add()": lambda s: s.add(a(name="cy")),
        "add() with a key": lambda s: s.add(a(id=9, name="cy", age=1)),
        "add_all()": lambda s: s.add_all([a(name="cy"), a(name="dan")]),
        "add() with related objects": lambda s: s.add(a(name="cy", books=[b(title="third")])),
        "an attribute": changed,
        "an attribute of several objects": several,
        "an attribute as an expression": increased,
        "merge()": lambda s: s.merge(a(id=1, name="ada", age=9)),
        "delete() of an object": gone_book,
        "delete() with related objects": gone,
        "many-to-many append()": tagged,
        "many-to-many clear()": untagged,
        "query.update()": lambda s: s.query(a).filter(a.id == 1).update({"age": 5}, synchronize_session=False),
        "query.update() of an expression": lambda s: s.query(a).filter(a.name == "ada").update({a.age: a.age * 2}, synchronize_session=False),
        "query.update(), fetched": lambda s: s.query(a).filter(a.age > 20).update({"age": 5}, synchronize_session="fetch"),
        "query.delete()": lambda s: s.query(b).filter(b.title == "second").delete(synchronize_session=False),
        "update() with or_": lambda s: s.execute(update(a).where(or_(a.id == 1, a.age > 35)).values(age=1), execution_options={"synchronize_session": False}),
        "update() with in_": lambda s: s.execute(update(a).where(a.name.in_(["ada", "bob"])).values(age=1), execution_options={"synchronize_session": False}),
        "update() with case": lambda s: s.execute(update(a).values(age=case((a.id == 1, 7), else_=a.age)), execution_options={"synchronize_session": False}),
        "update() with a subquery": lambda s: s.execute(update(b).where(b.author_id.in_(select(a.id).where(a.name == "ada"))).values(title="x"), execution_options={"synchronize_session": False}),
        "update() with a function": lambda s: s.execute(update(a).where(a.id == 1).values(name=func.upper(a.name)), execution_options={"synchronize_session": False}),
        "insert()": lambda s: s.execute(insert(a).values(name="cy")),
        "insert() of several": lambda s: s.execute(insert(a), [{"name": "cy"}, {"name": "dan"}]),
        "insert() of values": lambda s: s.execute(insert(a).values([{"name": "cy"}, {"name": "dan"}])),
        "insert().from_select()": lambda s: s.execute(insert(t).from_select(["name"], select(a.name))),
        "delete()": lambda s: s.execute(delete(b).where(b.id == 2), execution_options={"synchronize_session": False}),
        "bulk_save_objects()": lambda s: s.bulk_save_objects([a(name="cy"), a(name="dan")]),
        "bulk_insert_mappings()": lambda s: s.bulk_insert_mappings(a, [{"name": "cy"}, {"name": "dan"}]),
        "bulk_update_mappings()": lambda s: s.bulk_update_mappings(a, [{"id": 1, "age": 3}, {"id": 2, "age": 4}]),
    }


def _alchemy_reads(a: Any, t: Any, b: Any) -> Dict[str, Callable[[Any], Any]]:
    from sqlalchemy import exists, func, or_, select
    from sqlalchemy.orm import aliased, joinedload, selectinload

    other = aliased(a)
    return {
        "get()": lambda s: s.get(a, 1),
        "query.all()": lambda s: s.query(a).all(),
        "filter()": lambda s: s.query(a).filter(a.age >= 30, a.active).all(),
        "filter_by()": lambda s: s.query(a).filter_by(name="ada").one(),
        "or_": lambda s: s.query(a).filter(or_(a.age == 30, a.name == "bob")).all(),
        "~": lambda s: s.query(a).filter(~(a.age == 30)).all(),
        "in_": lambda s: s.query(a).filter(a.id.in_([1, 2, 7])).all(),
        "like": lambda s: s.query(a).filter(a.name.like("a%")).all(),
        "is_(None)": lambda s: s.query(a).filter(a.age.is_(None)).all(),
        "between": lambda s: s.query(a).filter(a.age.between(20, 35)).all(),
        "first()": lambda s: s.query(a).order_by(a.age.desc()).first(),
        "one_or_none()": lambda s: s.query(a).filter(a.name == "nobody").one_or_none(),
        "scalar() of a column": lambda s: s.execute(select(a.name).where(a.id == 1)).scalar(),
        "columns": lambda s: s.execute(select(a.name, a.age)).all(),
        "limit(), offset()": lambda s: s.query(a).order_by(a.id).limit(1).offset(1).all(),
        "count()": lambda s: s.query(a).filter(a.age > 20).count(),
        "func.count()": lambda s: s.execute(select(func.count()).select_from(a)).scalar(),
        "func.max()": lambda s: s.execute(select(func.max(a.age))).scalar(),
        "exists()": lambda s: s.query(exists().where(a.name == "ada")).scalar(),
        "where(exists())": lambda s: s.query(a).filter(exists().where(b.author_id == a.id)).all(),
        "distinct()": lambda s: s.query(a.age).distinct().all(),
        "join()": lambda s: s.query(a, b).join(b).all(),
        "join() to filter": lambda s: s.query(b).join(a).filter(a.name == "ada").all(),
        "outerjoin()": lambda s: s.query(a, b).outerjoin(b).all(),
        "a join with itself": lambda s: s.query(a, other).join(other, other.id > a.id).all(),
        "joinedload()": lambda s: s.query(b).options(joinedload(b.author)).all(),
        "joinedload() of several": lambda s: s.query(a).options(joinedload(a.books)).all(),
        "selectinload()": lambda s: s.query(a).options(selectinload(a.books)).all(),
        "a lazy relation": lambda s: s.get(b, 1).author.name,
        "a lazy collection": lambda s: list(s.get(a, 1).books),
        "many-to-many": lambda s: list(s.get(b, 1).tags),
        "group_by()": lambda s: s.execute(select(b.author_id, func.count()).group_by(b.author_id)).all(),
        "a subquery": lambda s: s.query(a).filter(a.id.in_(select(b.author_id))).all(),
        "a CTE": lambda s: s.query(a).filter(a.id.in_(select(select(b.author_id).cte("c").c.author_id))).all(),
        "union()": lambda s: s.execute(select(a.id).union(select(b.id))).all(),
        "with_for_update()": lambda s: s.query(a).filter(a.id == 1).with_for_update().one(),
        "an expression": lambda s: s.execute(select(a.id, a.age + 1)).all(),
        "stream of rows": lambda s: list(s.query(a).yield_per(1)),
    }


def alchemy_done(folder: str) -> List[Done]:
    """SQLAlchemy's operations."""
    from sqlalchemy import create_engine

    base, author, tag, book = _alchemy_models()
    places = {"SQLite": f"sqlite:///{folder}/alchemy.db"}
    if DSN and module("psycopg2"):
        words = dict(word.split("=", 1) for word in DSN.split())
        places["PostgreSQL"] = f"postgresql+psycopg2://{words['user']}@/{words['dbname']}?host={words['host']}"
    operations = [(name, call, True) for name, call in _alchemy_writes(author, tag, book).items()]
    operations += [(name, call, False) for name, call in _alchemy_reads(author, tag, book).items()]
    done: List[Done] = []
    for place, url in places.items():
        engine = create_engine(url)
        for name, call, writes in operations:
            _alchemy_tables(base, engine, author, tag, book)
            done.append(Done("SQLAlchemy", place, name, writes, *_alchemy_tried(url, call, folder)))
        base.metadata.drop_all(engine)
        engine.dispose()
    return done


def _alchemy_tables(base: Any, engine: Any, author: Any, tag: Any, book: Any) -> None:
    """Makes the tables anew."""
    from sqlalchemy.orm import Session

    base.metadata.drop_all(engine)
    base.metadata.create_all(engine)
    with Session(engine) as session:
        new, old = tag(name="new"), tag(name="old")
        ada, bob = author(name="ada", age=30, joined=DAY), author(name="bob", age=40)
        session.add_all([new, old, ada, bob, book(title="first", author=ada, tags=[new]), book(title="second", author=bob)])
        session.commit()


def _alchemy_tried(url: str, call: Callable[[Any], Any], folder: str) -> Tuple[str, str]:
    from sqlalchemy import create_engine
    from sqlalchemy.orm import Session

    path = os.path.join(folder, "recording")
    with _quiet():
        recorder = Recorder(path, TABLES)
        engine = recorder.engine(create_engine(url))
        with Session(engine) as session:
            kept = call(session)
            session.flush()
            del kept
            session.commit()
        engine.dispose()
        recorder.close()
    return _how(recorder, path)


# ---- figures


def done() -> List[Done]:
    """All operations of the mappers that are there."""
    found: List[Done] = []
    with tempfile.TemporaryDirectory() as folder:
        if module("sqlalchemy"):
            found += alchemy_done(folder)
        if module("django"):
            found += django_done(folder)
    return found


def shares(operations: Sequence[Done]) -> Dict[Tuple[str, str, bool], Tuple[int, int, int]]:
    """Of each mapper, database and kind: how many there are, how many are said, and how many whole."""
    found: Dict[Tuple[str, str, bool], Tuple[int, int, int]] = {}
    for one in operations:
        key = (one.mapper, one.place, one.writes)
        count, said, whole = found.get(key, (0, 0, 0))
        found[key] = (count + 1, said + (one.said in (SAID, IN_PART)), whole + (one.said == SAID))
    return found


def table(operations: Sequence[Done]) -> List[str]:
    """The figures as lines of Markdown."""
    lines = ["| | Operations | Said | All that they read, too |", "|---|---|---|---|"]
    for (mapper, place, writes), (count, said, whole) in shares(operations).items():
        lines.append(f"| {mapper} on {place}, {'writes' if writes else 'reads'} | {count} | {said}: {100 * said // count} % | {whole} |")
    return lines


def main() -> None:
    """Prints the figures, and what isn't said."""
    operations = done()
    print("\n".join(table(operations)))
    for one in operations:
        if "--all" in sys.argv or one.said in (LEFT_OUT, ENDS):
            print(f"{one.mapper} on {one.place}: {one.name}: {one.said}: {one.why[:300]}")


if __name__ == "__main__":
    main()
