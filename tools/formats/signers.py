"""Signers files: the digests of each name, why a file is refused, and whether an image is signed."""
from typing import Dict, List, NoReturn

from formats.images import Image, is_hex, measurement, refuse as refuse_image
from formats.refusals import Refusal, at, counted, document_of, hex_fault, typed
from formats.toml_document import Value
from formats.writing import quoted

DIGITS = 64
NUMBERS = {"badkey": 2, "baddigest": 3, "repeated": 4}
Signers = Dict[str, List[str]]


def refuse(word: str, *details: str) -> NoReturn:
    raise Refusal(f"signers refused: {NUMBERS[word]} {word}", 3, list(details))


def check_key(text: str, name: str, value: Value) -> None:
    """The value is an array of strings."""
    if value.kind != "array":
        refuse("badkey", at(text, value.offset, f"`{name}` is {typed(value)} and must be an array of strings"))
    for item in value.data:
        if item.kind != "string":
            refuse("badkey", at(text, item.offset, f"`{name}` has {typed(item)} among its strings"))


def check_digests(text: str, name: str, value: Value) -> None:
    """Each string is a digest."""
    for item in value.data:
        if len(item.data) != DIGITS or not is_hex(item.data):
            refuse("baddigest", hex_fault(text, item, f"where a measurement has {DIGITS}"), f"the name is `{name}`")


def check_repeats(text: str, name: str, value: Value) -> None:
    """No digest stands twice, whatever the case of its digits."""
    first: Dict[str, Value] = {}
    for item in value.data:
        earlier = first.setdefault(item.data.lower(), item)
        if earlier is not item:
            refuse("repeated", at(text, item.offset, f"this digest of `{name}` stands already"), at(text, earlier.offset, "here"))


def read_signers(data: bytes) -> Signers:
    """The signers that the bytes spell; a Refusal tells why there are none."""
    text, root = document_of(data, "signers")
    for check in (check_key, check_digests, check_repeats):
        for name, entry in root.data.items():
            check(text, name, entry.value)
    return {name: [item.data.lower() for item in entry.value.data] for name, entry in root.data.items()}


def check_signed(image: Image, signers: Signers) -> str:
    """The measurement of the image, where its signer signs it."""
    names = ", ".join(f"`{name}`" for name in signers) or "none"
    if image.signer not in signers:
        refuse_image("unknownsigner", f"the image names `{image.signer}`; the signers file has {names}")
    digest = measurement(image)
    if digest not in signers[image.signer]:
        others = [name for name in signers if digest in signers[name]]
        signed = "no name has it" if not others else f"`{others[0]}` has it"
        refuse_image(
            "notsigned",
            f"the measurement of the image is {digest}",
            f"`{image.signer}` signs {counted(len(signers[image.signer]), 'other')}, and {signed}",
        )
    return digest


def signed_too(data: bytes, name: str, digest: str) -> bytes:
    """The signers file with the digest under this name, and all else as it is; a Refusal where it is no signers file."""
    signers = read_signers(data)
    text, root = document_of(data, "signers")
    if digest in signers.get(name, []):
        return data
    if name in root.data:
        inside = root.data[name].value.offset + 1
        return f'{text[:inside]}"{digest}", {text[inside:]}'.encode("utf-8")
    end = "" if text.endswith("\n") or not text else "\n"
    return f'{text}{end}{quoted(name)} = ["{digest}"]\n'.encode("utf-8")
