package autopersist;

import java.lang.annotation.ElementType;
import java.lang.annotation.Target;

/** Marks a static field of a reference type as a durable root: what it reaches is kept in the image. */
@Target(ElementType.FIELD)
public @interface DurableRoot {}
