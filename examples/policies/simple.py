"""Five simple policies by their names, as examples for yours; the package has them, for studies use two of them, too."""
from dispatch_tools.days.usual import first_come_and_wait, first_come_first_served, never_wait, scheduled_order, wait_at_most

__all__ = ['first_come_and_wait', 'first_come_first_served', 'never_wait', 'scheduled_order', 'wait_at_most']
