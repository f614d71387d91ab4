"""Parts of the command explain, which shows one frame step by step."""
