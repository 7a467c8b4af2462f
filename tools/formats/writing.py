"""Texts of documents that the program takes."""
import json

from formats.images import Image


def quoted(text: str) -> str:
    """A string of a document."""
    return json.dumps(text, ensure_ascii=False).replace("\x7f", "\\u007f")


def image_text(image: Image) -> str:
    """The document of an image."""
    head = [
        "version = 1", f"base = {image.base}", f"entry = {image.entry}", f"budget = {image.budget}", f"signer = {quoted(image.signer)}",
    ]
    pages = [
        f'\n[[page]]\nperms = "{page.perms}"\ncluster = {quoted(page.cluster)}\nbytes = "{page.data.hex()}"' for page in image.pages
    ]
    return "\n".join([*head, *pages]) + "\n"
