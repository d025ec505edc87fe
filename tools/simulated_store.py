"""An honest store of one object, as the simulator of tools/try-audit has it: its requests, its replies, and their words in a recording."""
from __future__ import annotations

from dataclasses import dataclass, field

# What stands for the boundary's file where a version's id would stand.
BOUNDARY = -1


def path_of(id):
    return "root/gc/test.boundary" if id == BOUNDARY else f"root/test/{id:020}.val"


def id_of(path):
    """The id of a version's path, and that which stands for the boundary."""
    return BOUNDARY if path == path_of(BOUNDARY) else int(path.rsplit("/", 1)[1].split(".")[0])


@dataclass(frozen=True)
class Request:
    """What the store is asked: of a put the token that it writes over, of a get the one that is known, of a listing the page and after what."""

    kind: str
    id: int = BOUNDARY
    token: int | None = None
    data: str = ""
    limit: int = 0

    def words(self):
        """How a recording says it."""
        path, data = path_of(self.id), self.data.encode().hex()
        if self.kind == "list":
            return f"list root/test {self.limit}" + (f" {path}" if self.id else "")
        told = {"create": data, "update": f"{self.token} {data}", "get": "-" if self.token is None else f"{self.token}"}
        return " ".join([self.kind, path, *([told[self.kind]] if self.kind in told else [])])

    def changes(self):
        return self.kind in ("create", "update", "delete")


@dataclass(frozen=True)
class Reply:
    """What the store answers: an error, or what it tells."""

    word: str
    error: str = ""
    token: int | None = None
    data: str = ""
    files: tuple = ()
    more: bool = False

    def words(self):
        if self.error or self.word == "delete":
            return f"{self.word} {self.error or 'done'}"
        if self.word == "put":
            return f"put {self.token}"
        if self.word == "get":
            return f"get {self.token} {self.data.encode().hex()}"
        files = [f" {path_of(id)}:{token}:{size}" for id, token, size in self.files]
        return f"list {'more' if self.more else 'last'}{''.join(files)}"


@dataclass
class Store:
    """The files by their ids, each with its token and what it says, and the token that was given last."""

    files: dict = field(default_factory=dict)
    given: int = 0

    def serve(self, request):
        """Answers a request, with its effect."""
        return getattr(self, request.kind)(request)

    def put(self, request):
        self.given += 1
        self.files[request.id] = (self.given, request.data)
        return Reply("put", token=self.given)

    def create(self, request):
        return Reply("put", "AlreadyExists") if request.id in self.files else self.put(request)

    def update(self, request):
        stands = request.id in self.files and self.files[request.id][0] == request.token
        return self.put(request) if stands else Reply("put", "Precondition")

    def get(self, request):
        if request.id not in self.files:
            return Reply("get", "NotFound")
        token, data = self.files[request.id]
        return Reply("get", "NotModified") if token == request.token else Reply("get", token=token, data=data)

    def delete(self, request):
        self.files.pop(request.id, None)
        return Reply("delete")

    def list(self, request):
        ids = sorted(id for id in self.files if id > request.id)
        files = tuple((id, self.files[id][0], len(self.files[id][1].encode())) for id in ids[: request.limit])
        return Reply("list", files=files, more=len(ids) > request.limit)
