"""`dataclass`, `field` and `replace` as dataclasses has them, for a quick start: to read that
module, and to compile all methods of each class, takes as long as all else that Machine reads. Here
a class has its `__init__` compiled when its first value is made. There is what the classes of the
package need: fields with defaults, also of the class that one is a kind of; equality, a
representation, a hash if they are frozen, `__post_init__`. The functions of dataclasses, such as
`asdict`, know these classes, and type checkers see dataclasses itself."""
from operator import attrgetter
from typing import TYPE_CHECKING

if TYPE_CHECKING:
    from dataclasses import dataclass as dataclass, field as field, replace as replace
else:

    class Factory:
        """The default of a field that is made anew for each value."""

        def __init__(self, make):
            self.make = make

    class Fields:
        """`__dataclass_fields__` of a class, which is made when a function of dataclasses asks."""

        def __get__(self, value, cls):
            import dataclasses

            types = {}
            for it in reversed(cls.__mro__):
                types.update(getattr(it, "__annotations__", {}))
            fields = [(it, types[it]) for it in cls.NAMES]
            return dataclasses.make_dataclass(cls.__name__, fields).__dataclass_fields__

    def field(*, default_factory):
        return Factory(default_factory)

    def replace(value, /, **changes):
        """The value with other values of these fields."""
        return type(value)(**{**{it: getattr(value, it) for it in type(value).NAMES}, **changes})

    def init_of(cls):
        """`__init__`, which takes the fields in their order or by name."""
        parameters, lines = ["_self"], ["_fields = _self.__dict__"]
        for name in cls.NAMES:
            default = cls.DEFAULTS.get(name)
            made = f"{name}.make() if {name} is _DEFAULTS[{name!r}] else {name}"
            lines.append(f"_fields[{name!r}] = {made if isinstance(default, Factory) else name}")
            parameters.append(f"{name}=_DEFAULTS[{name!r}]" if name in cls.DEFAULTS else name)
        lines += ["_self.__post_init__()"] * hasattr(cls, "__post_init__")
        text = "\n    ".join([f"def __init__({', '.join(parameters)}):", *lines])
        found = {"_DEFAULTS": cls.DEFAULTS, "__name__": cls.__module__}
        exec(text, found)
        return found["__init__"]

    def shown(self):
        fields = ", ".join(f"{it}={getattr(self, it)!r}" for it in type(self).NAMES)
        return f"{type(self).__qualname__}({fields})"

    def is_equal(self, other):
        parts = type(self).PARTS
        return parts(self) == parts(other) if type(self) is type(other) else NotImplemented

    def hash_of_parts(self):
        return hash(type(self).PARTS(self))

    def refuse(self, name, *value):
        raise AttributeError(f"{type(self).__name__} can't be changed: {name}")

    def made(cls, is_frozen):
        """The class with what its fields give. What it has of its own stays."""
        own, types = dict(vars(cls)), cls.__annotations__
        names = [it for it in types if "ClassVar" not in str(types[it])]
        defaults = {it: own[it] for it in names if it in own}
        for name in [it for it in defaults if isinstance(defaults[it], Factory)]:
            delattr(cls, name)
        # after those of the class that this one is a kind of
        cls.NAMES = tuple(dict.fromkeys([*getattr(cls, "NAMES", ()), *names]))
        cls.DEFAULTS = {**getattr(cls, "DEFAULTS", {}), **defaults}
        cls.PARTS = attrgetter(*cls.NAMES)
        cls.__match_args__, cls.__dataclass_fields__ = cls.NAMES, Fields()
        cls.__hash__ = own.get("__hash__") or (hash_of_parts if is_frozen else None)
        cls.__eq__, cls.__repr__ = own.get("__eq__", is_equal), own.get("__repr__", shown)
        if is_frozen:
            cls.__setattr__ = cls.__delattr__ = refuse

        def begin(self, /, *given, **named):
            cls.__init__ = init_of(cls)
            cls.__init__(self, *given, **named)

        cls.__init__ = begin
        return cls

    def dataclass(cls=None, *, frozen=False):
        return made(cls, frozen) if cls is not None else lambda it: made(it, frozen)
