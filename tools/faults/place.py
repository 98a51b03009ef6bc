"""The folder of a run: the files that are put into it, and the room that is left on a small device."""
import os

PAGE = 4_096
BALLAST = "ballast"
# The greatest device, in pages, that is filled up.
SMALL = 4_096


def free_pages(folder):
    found = os.statvfs(folder)
    return found.f_bavail * found.f_frsize // PAGE


def is_small(folder):
    """Whether a folder is an empty one on a device that may be filled up."""
    return os.path.isdir(folder) and not os.listdir(folder) and free_pages(folder) <= SMALL


def fill(folder, texts, room=None):
    """Puts files into a folder, and no others but, on a small device, what leaves so many pages free."""
    for name in os.listdir(folder):
        os.remove(f"{folder}/{name}")
    for name, text in texts.items():
        with open(f"{folder}/{name}", "wb") as file:
            file.write(text)
    if room is not None:
        with open(f"{folder}/{BALLAST}", "wb") as file:
            file.write(bytes(PAGE * max(0, free_pages(folder) - room)))


def make_room(folder):
    os.remove(f"{folder}/{BALLAST}")


def there(folder):
    """The files of a folder by name."""
    texts = {}
    for name in os.listdir(folder):
        if name != BALLAST:
            with open(f"{folder}/{name}", "rb") as file:
                texts[name] = file.read()
    return texts


def rooms(before, after, pick, count):
    """So many numbers of pages to leave free, from none to what files take more after a run than before it."""
    pages = sum(-(-len(text) // PAGE) for text in after.values()) - len(before)
    return [pick.randint(0, max(1, pages)) for _ in range(count)]
