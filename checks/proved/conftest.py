"""Makes the checks of this folder run the proved programs, also in the checks that they take over from checks/."""
import os

TOP = os.path.dirname(os.path.dirname(os.path.dirname(os.path.abspath(__file__))))
for name, crate in (('TRAC', 'trac_cli'), ('TRACER', 'trac_trace')):
    os.environ[name] = os.path.join(TOP, 'crates', crate, 'out', crate)
