package autopersist;

import java.lang.annotation.ElementType;
import java.lang.annotation.Target;

/** Marks a field whose value the image needn't keep: it is read and accepted, and nothing uses it yet. */
@Target(ElementType.FIELD)
public @interface Unrecoverable {}
