"""The application `pgserial.django`, whose command `judge` judges a recording."""

from django.apps import AppConfig


class PgserialConfig(AppConfig):
    """It has no models."""

    name = "pgserial.django"
    label = "pgserial"
